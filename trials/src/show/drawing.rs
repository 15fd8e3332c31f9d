//! What does not change from call to call in a picture: scales, names, grounds and limits. And a
//! whole evening as one drawing of its own.

use super::evening::Evening;
use super::film::Film;
use super::lanes::Lane;
use super::layout::{Band, Block, Layout, GUTTER};
use std::fmt::Write;

/// What the shapes look like, for the page and for a drawing alone.
pub const STYLE: &str = include_str!("drawing.css");
/// Hatches, by which shapes differ on paper too.
pub const HATCHES: &str = include_str!("hatches.svg");

/// Around a drawing of its own.
const MARGIN: u32 = 8;

/// A block: the pieces in their slots, below them a grid, and above them what has to be read.
pub fn block(evening: &Evening, layout: &Layout, block: &Block, slots: &str) -> String {
    let ticks: Vec<(u64, f64)> =
        layout.ticks().into_iter().map(|minute| (minute, layout.across(minute))).collect();
    let grid = ticks.iter().map(|(_, x)| {
        let height = block.height;
        format!(r#"<line class="grid" x1="{x:.2}%" x2="{x:.2}%" y1="16" y2="{height}"/>"#)
    });
    let mut out = grid.collect::<String>() + slots;
    out.push_str(r#"<text class="tick axis" x="-6" y="12">minute</text>"#);
    for (minute, x) in ticks {
        let anchor = if x > 97.0 { "end" } else { "middle" };
        let _ = write!(
            out,
            r#"<text class="tick" x="{x:.2}%" y="12" text-anchor="{anchor}">{minute}</text>"#
        );
    }
    for (top, title) in &block.titles {
        let _ = write!(out, r#"<text class="name" x="-{GUTTER}" y="{}">{title}</text>"#, top + 12);
    }
    let lanes = evening.last_lanes();
    block.bands().iter().for_each(|band| out.push_str(&frame(band, &lanes[band.lane])));
    out
}

/// The name of a lane, its ground and the line of the most, where that is in the picture.
fn frame(band: &Band, lane: &Lane) -> String {
    let (name, most, base) = (lane.subject.name(), lane.subject.most(), band.base());
    let mut out = format!(
        r#"<text class="name" x="-{GUTTER}" y="{}">{name} <tspan class="most">{most} {}</tspan></text>"#,
        band.top - 4,
        lane.most
    );
    let drawn = lane.most <= band.full;
    let (highest, class) = if drawn { (lane.most, "limit") } else { (band.full, "grid") };
    let y = f64::from(base) - band.tall(highest);
    let _ = write!(
        out,
        "<line class=\"ground\" x1=\"0\" x2=\"100%\" y1=\"{base}\" y2=\"{base}\"/>\
         <line class=\"{class}\" x1=\"0\" x2=\"100%\" y1=\"{y:.1}\" y2=\"{y:.1}\"/>\
         <text class=\"tick axis\" x=\"-6\" y=\"{:.1}\">{highest}</text>",
        y + 9.0
    );
    // A low limit stands where the nought would.
    if band.tall(highest) >= 20.0 {
        let _ = write!(out, r#"<text class="tick axis" x="-6" y="{base}">0</text>"#);
    }
    out
}

/// The evening at its end as one drawing of its own.
pub fn standalone(evening: &Evening, width: u32) -> String {
    let layout = Layout::of(evening);
    let film = Film::of(evening, &layout);
    let (mut parts, mut top) = (String::new(), MARGIN);
    for (place, block) in layout.blocks.iter().enumerate() {
        let inside = self::block(evening, &layout, block, &film.at_the_end(place));
        let _ = writeln!(
            parts,
            "<svg class=\"drawing\" x=\"{}\" y=\"{top}\" width=\"{width}\" height=\"{}\" \
             overflow=\"visible\">{inside}</svg>",
            MARGIN + GUTTER,
            block.height
        );
        top += block.height;
    }
    format!(
        "<svg xmlns=\"http://www.w3.org/2000/svg\" width=\"{}\" height=\"{}\" role=\"img\" \
         aria-label=\"An evening: counts, spreads and charges over time\">\n<style>\n{STYLE}</style>\n\
         {HATCHES}<rect width=\"100%\" height=\"100%\" fill=\"#fff\"/>\n{parts}</svg>\n",
        width + GUTTER + 2 * MARGIN,
        top + MARGIN
    )
}
