//! An evening as one page for a browser that needs no network. All that is drawn is drawn here;
//! the page's script puts pieces into their slots and nothing more.

use super::drawing::{self, HATCHES, STYLE};
use super::entry::Entry;
use super::evening::Evening;
use super::film::Film;
use super::layout::Layout;
use super::markup::{escaped, shortened};
use super::reading::Story;
use std::fmt::Write;

const PAGE: &str = include_str!("page.html");
const LOOK: &str = include_str!("page.css");
const SCRIPT: &str = include_str!("page.js");
const STATION: &str = include_str!("station.html");

/// A call longer than this is cut off in the list.
const LONGEST: usize = 160;

/// The page of a story.
pub fn page(story: &Story, title: &str) -> String {
    let stations: Vec<String> = story
        .evenings
        .iter()
        .enumerate()
        .map(|(place, evening)| station(evening, place + 1, story.evenings.len()))
        .collect();
    filled(
        PAGE,
        &[
            ("title", escaped(title)),
            ("look", format!("{STYLE}{LOOK}")),
            ("hatches", HATCHES.to_string()),
            ("verdict", verdict(story)),
            ("stations", stations.concat()),
            ("script", SCRIPT.to_string()),
        ],
    )
}

/// A template with its places filled. What is filled in is not looked at again.
fn filled(template: &str, places: &[(&str, String)]) -> String {
    let mut out = String::new();
    let mut rest = template;
    while let Some((before, after)) = rest.split_once("{{") {
        let (name, behind) = after.split_once("}}").unwrap_or((after, ""));
        out.push_str(before);
        let found = places.iter().find(|(place, _)| *place == name);
        out.push_str(found.map_or("", |(_, text)| text.as_str()));
        rest = behind;
    }
    out + rest
}

fn verdict(story: &Story) -> String {
    let broken = story.broken();
    if broken.is_empty() {
        return format!("<p class=\"verdict kept\">{}</p>", story.kept());
    }
    let items: Vec<String> =
        broken.iter().map(|what| format!("<li>{}</li>", escaped(&shortened(what, 400)))).collect();
    format!("<div class=\"verdict red\"><p>Broken:</p><ul>{}</ul></div>", items.concat())
}

fn station(evening: &Evening, number: usize, of: usize) -> String {
    let heading = heading(evening, number, of);
    let calls: Vec<String> =
        evening.shown().enumerate().map(|(step, (_, entry))| call(entry, step)).collect();
    if evening.charges.is_empty() {
        let list = calls.concat();
        return format!(
            "<section><h2>{heading}</h2><p>No order was taken.</p>\
             <ol class=\"calls\">{list}</ol></section>\n"
        );
    }
    let layout = Layout::of(evening);
    let film = Film::of(evening, &layout);
    filled(
        STATION,
        &[
            ("heading", heading),
            ("blocks", blocks(evening, &layout, &film)),
            ("most", (calls.len() - 1).to_string()),
            ("calls", calls.concat()),
            ("film", film.written()),
        ],
    )
}

fn blocks(evening: &Evening, layout: &Layout, film: &Film) -> String {
    let mut out = String::new();
    for (place, block) in layout.blocks.iter().enumerate() {
        let inside = drawing::block(evening, layout, block, &film.at_the_end(place));
        let (name, height) = (&block.name, block.height);
        let _ = writeln!(
            out,
            "<svg class=\"drawing\" width=\"100%\" height=\"{height}\" role=\"group\" \
             aria-label=\"{name}, in minutes\">{inside}</svg>"
        );
    }
    out
}

fn heading(evening: &Evening, number: usize, of: usize) -> String {
    let feeders: Vec<String> = evening
        .site
        .feeders
        .iter()
        .enumerate()
        .map(|(place, feeder)| {
            let (limit, bound, tail) = (feeder.limit, feeder.bound, feeder.tail);
            format!("feeder {}: limit {limit}, bound {bound}, tail {tail}", place + 1)
        })
        .collect();
    let which = if of > 1 { format!("Station {number} of {of}. ") } else { String::new() };
    format!("{which}Site limit {}; {}", evening.site.limit, feeders.join("; "))
}

/// A call in the list beside the picture, with the comments before it.
fn call(entry: &Entry, step: usize) -> String {
    let notes = match entry.notes.as_slice() {
        [] => String::new(),
        notes => format!("<p class=\"note\">{}</p>", escaped(&notes.join(" "))),
    };
    let mark = if entry.broken.is_empty() { "" } else { " red" };
    let meaning = match entry.broken.as_slice() {
        [] => entry.meaning(),
        broken => shortened(&broken.join("; "), 400),
    };
    let meaning = match meaning.as_str() {
        "" => String::new(),
        meaning => format!("<span class=\"meaning\">{}</span>", escaped(meaning)),
    };
    format!(
        "<li class=\"{}{mark}\">{notes}<button type=\"button\" data-step=\"{step}\"><span class=\"at\">{}</span>\
         <code>{}</code> <span class=\"answer\">{}</span>{meaning}</button></li>",
        entry.sort.name(),
        entry.line,
        escaped(&shortened(&entry.text, LONGEST)),
        escaped(&shortened(&entry.answer, LONGEST)),
    )
}
