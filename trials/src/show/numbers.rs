//! The numbers of a lane, drawn and in words.

use super::lanes::{Lane, Mark, Step};
use super::layout::{Band, Layout, LANE};
use std::fmt::Write;

fn name(mark: Mark) -> &'static str {
    match mark {
        Mark::Within => "within",
        Mark::Reached => "reached",
        Mark::Broken => "broken",
        Mark::Unknown => "unknown",
    }
}

/// Everything that a lane, or the part of one, shows: areas, numbers upon them, and the words.
pub fn piece(layout: &Layout, lane: &Lane, band: &Band) -> String {
    let mut out = format!("<g role=\"img\"><title>{}</title>", reading(lane));
    out.push_str(&plain(layout, &lane.steps, band));
    for step in lane.steps.iter().filter(|step| is_hatched(step.mark)) {
        out.push_str(&hatched(layout, step, band));
    }
    lane.steps.iter().for_each(|step| out.push_str(&label(layout, step, band)));
    out + "</g>"
}

/// The numbers of a lane with the minutes that they hold for, in words.
fn reading(lane: &Lane) -> String {
    let (name, most) = (lane.subject.name(), lane.subject.most());
    let step = |step: &Step| {
        let mark = match step.mark {
            Mark::Within => "",
            Mark::Reached => " (reached)",
            Mark::Broken => " (BROKEN)",
            Mark::Unknown => " (not all is told)",
        };
        format!("{} to {}: {}{mark}", step.from, step.to, step.value)
    };
    let steps: Vec<String> = lane.steps.iter().map(step).collect();
    let steps = match steps.as_slice() {
        [] => "nothing".to_string(),
        steps => format!("minutes {}", steps.join(", ")),
    };
    format!("{name}, {most} {}; {steps}", lane.most)
}

/// A hatch would be stretched together with the minutes.
fn is_hatched(mark: Mark) -> bool {
    matches!(mark, Mark::Broken | Mark::Unknown)
}

/// Areas of one colour, in minutes and counts, which the frame stretches to its size.
fn plain(layout: &Layout, steps: &[Step], band: &Band) -> String {
    let mut areas = String::new();
    for mark in [Mark::Within, Mark::Reached] {
        let path = path(steps.iter().filter(|step| step.mark == mark), band.full);
        if !path.is_empty() {
            let _ = write!(areas, r#"<path class="{}" d="{path}"/>"#, name(mark));
        }
    }
    if areas.is_empty() {
        return areas;
    }
    let Band { top, full, .. } = band;
    let (first, span) = (layout.first, layout.last - layout.first);
    format!(
        "<svg y=\"{top}\" width=\"100%\" height=\"{LANE}\" viewBox=\"{first} 0 {span} {full}\" \
         preserveAspectRatio=\"none\">{areas}</svg>"
    )
}

/// From the ground up, along the steps that follow each other, and down again.
fn path<'a>(steps: impl Iterator<Item = &'a Step>, full: u64) -> String {
    let mut path = String::new();
    let mut reached = None;
    for step in steps {
        if reached != Some(step.from) {
            if reached.is_some() {
                let _ = write!(path, "V{full}z");
            }
            let _ = write!(path, "M{} {full}", step.from);
        }
        let _ = write!(path, "V{}H{}", full - step.value.min(full), step.to);
        reached = Some(step.to);
    }
    if reached.is_some() {
        let _ = write!(path, "V{full}z");
    }
    path
}

fn hatched(layout: &Layout, step: &Step, band: &Band) -> String {
    let (x, to) = (layout.across(step.from), layout.across(step.to));
    let (wide, tall) = (to - x, band.tall(step.value));
    let y = f64::from(band.base()) - tall;
    format!(
        r#"<rect class="{}" x="{x:.2}%" y="{y:.1}" width="{wide:.2}%" height="{tall:.1}"/>"#,
        name(step.mark)
    )
}

/// The number in its area, where there is room; where there is room only on a desk it is left out
/// on a phone.
fn label(layout: &Layout, step: &Step, band: &Band) -> String {
    let (x, to) = (layout.across(step.from), layout.across(step.to));
    let (wide, digits) = (to - x, step.value.to_string().len() as f64);
    if step.value == 0 || wide < 0.7 + 0.9 * digits {
        return String::new();
    }
    let tight = if wide < 2.0 + 1.8 * digits { " tight" } else { "" };
    format!(
        r#"<text class="count {}{tight}" x="{:.2}%" y="{}">{}</text>"#,
        name(step.mark),
        x + wide / 2.0,
        band.base() - 3,
        step.value
    )
}
