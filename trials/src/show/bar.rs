//! The bar of a charge, drawn and in words.

use super::charge::{Charge, State};
use super::layout::{Layout, Row, GUTTER, ROW};
use super::words;
use std::fmt::Write;

/// Half the height of a bar for each rate: one of rate 2 is twice as thick.
const HALF: f64 = 2.75;
/// The middle of a row.
const MIDDLE: f64 = 7.5;
/// From here on, in hundredths of the width, there is no room for words on the right.
const NO_ROOM: f64 = 88.0;

/// All that the bar of a charge depends on, besides the charge: the same face is the same bar.
#[derive(Clone, Copy, PartialEq, Eq)]
pub struct Face {
    state: State,
    start: Option<u64>,
    last_known: Option<u64>,
    /// Where it was before a plan that was taken, or would be by an offer that was kept out.
    ghost: Option<u64>,
}

impl Face {
    /// None before its order.
    pub fn of(charge: &Charge, moment: usize, clock: u64, ghost: Option<u64>) -> Option<Face> {
        charge.ordered_by(moment).then(|| Face {
            state: charge.state(moment, clock),
            start: charge.start_after(moment),
            last_known: charge.last_known(moment),
            ghost,
        })
    }
}

/// The bar with its text, for those who point at it and for those who listen.
pub fn piece(layout: &Layout, row: &Row, charge: &Charge, face: &Face) -> String {
    let half = HALF * f64::from(charge.rate.clamp(1, 2));
    let middle = f64::from(row.top) + MIDDLE;
    let mut pen = Pen { layout, out: String::new(), middle, half };
    match (face.start, face.last_known) {
        (Some(start), _) if face.state == State::Withdrawn => withdrawn(&mut pen, charge, start),
        (Some(start), _) => stretch(&mut pen, charge, start, face),
        (None, Some(start)) => pen.rect("untold", start, charge.end(start)),
        (None, None) => (),
    }
    let text = reading(charge, face).join("\n");
    let times = if charge.rate == 1 { String::new() } else { format!(" \u{d7}{}", charge.rate) };
    format!(
        "<g class=\"charge is-{}\" tabindex=\"0\" role=\"img\" aria-label=\"{}\"><title>{text}</title>\
         <rect class=\"hit\" x=\"-{GUTTER}\" y=\"{top}\" width=\"{GUTTER}\" height=\"{ROW}\"/>\
         <rect class=\"hit\" y=\"{top}\" width=\"100%\" height=\"{ROW}\"/>\
         <text class=\"ticket\" x=\"-6\" y=\"{}\">{}{times}</text>{}</g>",
        face.state.name(),
        text.replace('\n', ", "),
        middle + 4.0,
        charge.ticket,
        pen.out,
        top = row.top,
    )
}

fn withdrawn(pen: &mut Pen, charge: &Charge, start: u64) {
    let gone = charge.withdrawn.map_or(start, |withdrawn| withdrawn.minute);
    pen.line("waiting", charge.ordered.minute, gone);
    pen.rect("withdrawn", start, charge.end(start));
    pen.post("gone", gone);
    pen.label(charge.end(start), start, "withdrawn");
}

fn stretch(pen: &mut Pen, charge: &Charge, start: u64, face: &Face) {
    let (end, clear) = (charge.end(start), charge.clear(start));
    let drawn = if face.state == State::Waiting { "planned" } else { "begun" };
    pen.line("waiting", charge.ordered.minute, start);
    let due = charge.due.clamp(start, end);
    pen.rect(drawn, start, due);
    pen.rect(&format!("late {drawn}"), due, end);
    pen.rect("tail", end, clear);
    pen.post("due", charge.due);
    if start < charge.ordered.minute {
        pen.rect("broken", start, charge.ordered.minute);
    }
    if let Some(ghost) = face.ghost {
        pen.rect("ghost", ghost, charge.end(ghost));
    }
    let late = charge.lateness(start);
    if late > 0 {
        let ghost_end = face.ghost.map_or(0, |ghost| charge.end(ghost));
        pen.label(clear.max(ghost_end), start, &format!("+{late}"));
    }
}

/// What is to be read of a charge, a line each.
fn reading(charge: &Charge, face: &Face) -> Vec<String> {
    let mut lines = vec![
        format!("ticket {}: {}", charge.ticket, face.state.name()),
        format!("feeder {}, line {}", charge.feeder, charge.line),
        format!("rate {}", charge.rate),
        format!("ordered in {}", charge.ordered.minute),
    ];
    match face.start {
        None => lines.push("start not told".to_string()),
        Some(start) => {
            lines.push(format!("start {start}"));
            let draws = format!(", draws to {}", charge.clear(start));
            let tail = if charge.tail > 0 { draws.as_str() } else { "" };
            lines.push(format!("end {}{tail}", charge.end(start)));
        }
    }
    lines.push(format!("due {}", charge.due));
    match (charge.withdrawn, face.start) {
        (Some(withdrawn), _) if face.state == State::Withdrawn => {
            lines.push(format!("withdrawn in {}", withdrawn.minute));
        }
        (_, Some(start)) if charge.lateness(start) > 0 => {
            lines.push(format!("{} late", words::minutes(charge.lateness(start))));
        }
        (_, Some(_)) => lines.push("not late".to_string()),
        _ => (),
    }
    lines
}

/// Writes rectangles and lines of one row.
struct Pen<'a> {
    layout: &'a Layout,
    out: String,
    middle: f64,
    half: f64,
}

impl Pen<'_> {
    fn rect(&mut self, name: &str, from: u64, to: u64) {
        let (x, last) = (self.layout.across(from), self.layout.across(to));
        if last > x {
            let (y, tall) = (self.middle - self.half, 2.0 * self.half);
            let wide = last - x;
            let _ = write!(
                self.out,
                r#"<rect class="{name}" x="{x:.2}%" y="{y:.1}" width="{wide:.2}%" height="{tall:.1}"/>"#
            );
        }
    }

    fn line(&mut self, name: &str, from: u64, to: u64) {
        let (x, last, y) = (self.layout.across(from), self.layout.across(to), self.middle);
        if last > x {
            let _ = write!(
                self.out,
                r#"<line class="{name}" x1="{x:.2}%" x2="{last:.2}%" y1="{y}" y2="{y}"/>"#
            );
        }
    }

    fn post(&mut self, name: &str, minute: u64) {
        if self.layout.shows(minute) {
            let (x, y) = (self.layout.across(minute), self.middle);
            let _ = write!(
                self.out,
                r#"<line class="{name}" x1="{x:.2}%" x2="{x:.2}%" y1="{}" y2="{}"/>"#,
                y - 6.5,
                y + 6.5
            );
        }
    }

    /// Behind a minute, or before the other one where there is no room on the right.
    fn label(&mut self, after: u64, before: u64, text: &str) {
        let (right, left) = (self.layout.across(after), self.layout.across(before));
        let (x, shift, anchor) =
            if right <= NO_ROOM { (right, 4, "start") } else { (left, -4, "end") };
        let y = self.middle + 4.0;
        let _ = write!(
            self.out,
            r#"<text class="word" x="{x:.2}%" dx="{shift}" y="{y}" text-anchor="{anchor}">{text}</text>"#
        );
    }
}
