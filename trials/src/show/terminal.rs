//! An evening in a terminal: a character stands for some minutes, and everything is told by
//! characters, so that it can be read without colour; colour only repeats it.

use super::cells::{self, digit, sign, tint, Cells, Tint};
use super::charge::Charge;
use super::evening::Evening;
use super::lanes::{Lane, Mark, Subject};
use super::listing;
use super::markup::{flowing, shortened};
use super::reading::Story;
use std::fmt::Write;

/// Before the time axis stand ticket, feeder, line and rate.
pub(super) const LEFT: usize = 13;
const NARROWEST: usize = 40;
/// Minutes for a character: numbers in which people think of time.
const PACES: [u64; 16] = [1, 2, 3, 4, 5, 6, 8, 10, 12, 15, 20, 30, 60, 120, 240, 480];
/// Characters between two minutes of the scale.
const TICK: usize = 10;

/// What the characters stand for.
const LEGEND: [&str; 11] = [
    "o ordered",
    ". waiting",
    "# charged",
    "% charged after its due minute",
    "~ tail",
    "- planned",
    "+ planned after its due minute",
    "x withdrawn",
    "+12 minutes late",
    "= limit, bound or site limit reached",
    "! broken",
];
const UNKNOWN: &str = "? not told by any answer";

pub struct Look {
    pub columns: usize,
    pub colour: bool,
}

/// The whole story, a station after the other.
pub fn draw(story: &Story, look: &Look) -> String {
    let mut out = String::new();
    let look = Look { columns: look.columns.max(NARROWEST), colour: look.colour };
    for (place, evening) in story.evenings.iter().enumerate() {
        if !evening.charges.is_empty() {
            Canvas::of(evening, &look, &mut out).draw(place + 1, story.evenings.len());
        }
    }
    listing::lists(story, &look, &mut out);
    out
}

/// One station on its scale.
struct Canvas<'a> {
    evening: &'a Evening,
    look: &'a Look,
    out: &'a mut String,
    first: u64,
    /// Minutes for a character.
    pace: u64,
    width: usize,
}

impl<'a> Canvas<'a> {
    fn of(evening: &'a Evening, look: &'a Look, out: &'a mut String) -> Canvas<'a> {
        let right = evening.charges.iter().map(|charge| late(evening, charge).len()).max();
        let room = (look.columns - LEFT - 2).saturating_sub(right.unwrap_or(0)).max(1) as u64;
        let (first, last) = evening.span();
        let enough = |pace: &u64| (last - first).div_ceil(*pace) <= room;
        let pace = PACES.into_iter().find(enough).unwrap_or((last - first).div_ceil(room));
        let width = (last - first).div_ceil(pace) as usize;
        Canvas { evening, look, out, first, pace, width }
    }

    fn draw(&mut self, number: usize, of: usize) {
        let Evening { site, charges, clock, .. } = self.evening;
        let which = if of > 1 { format!("Station {number} of {of}: ") } else { String::new() };
        let (feeders, taken) = (site.feeders.len(), charges.len());
        let plural = |count: usize| if count == 1 { "" } else { "s" };
        let (many, some) = (plural(feeders), plural(taken));
        let pace = self.pace;
        let minutes = plural(pace as usize);
        let words = format!(
            "{which}{feeders} feeder{many}, {taken} charge{some}, clock {clock}. A character is \
             {pace} minute{minutes} and shows the most in them; numbers are read downwards."
        );
        let words: Vec<&str> = words.split(' ').collect();
        self.out.push_str(&flowing(&words, " ", self.look.columns));
        self.lanes();
        self.charges();
    }

    fn line(&mut self, text: &str) {
        let text = shortened(text, self.look.columns);
        let _ = writeln!(self.out, "{}", text.trim_end());
    }

    fn scale(&mut self) {
        let mut text = " ".repeat(LEFT + 1);
        for place in (0..self.width).step_by(TICK) {
            let minute = (self.first + place as u64 * self.pace).to_string();
            text.truncate(LEFT + 1 + place);
            let _ = write!(text, "{minute:<TICK$}");
        }
        self.line(&text);
    }

    fn lanes(&mut self) {
        for lane in self.evening.last_lanes().iter() {
            match lane.subject {
                Subject::Line { feeder, line: 1 } => {
                    let told = &self.evening.site.feeders[feeder - 1];
                    let (limit, bound, tail) = (told.limit, told.bound, told.tail);
                    self.line("");
                    self.line(&format!(
                        "feeder {feeder}: limit {limit}, bound {bound}, tail {tail}"
                    ));
                    self.scale();
                }
                Subject::Site => self.line(""),
                _ => (),
            }
            self.lane(lane);
        }
    }

    /// The largest number in the minutes of each character, read downwards where it has
    /// several digits; below it where the most is reached or broken.
    fn lane(&mut self, lane: &Lane) {
        let columns: Vec<(u64, Mark)> =
            (0..self.width).map(|place| self.most(lane, place)).collect();
        let highest = columns.iter().map(|(value, _)| *value).max().unwrap_or(0);
        let rows = highest.max(1).to_string().len() as u32;
        let name = match lane.subject {
            Subject::Line { line, .. } => format!("line {line} of {}", lane.most),
            Subject::Spread { .. } => format!("spread of {}", lane.most),
            Subject::Site => format!("site of {}", lane.most),
        };
        for row in (0..rows).rev() {
            let cells = columns.iter().map(|(value, mark)| (digit(*value, row), tint(*mark)));
            let label = if row == 0 { name.as_str() } else { "" };
            self.row(label, cells.collect(), "");
        }
        if columns.iter().any(|(_, mark)| *mark != Mark::Within) {
            let cells = columns.iter().map(|(_, mark)| (sign(*mark), tint(*mark)));
            self.row("", cells.collect(), "");
        }
    }

    /// The worst of the minutes of a character.
    fn most(&self, lane: &Lane, place: usize) -> (u64, Mark) {
        let (from, to) = self.minutes(place);
        let steps = lane.steps.iter().filter(|step| step.from < to && from < step.to);
        let rank = |mark: Mark| match mark {
            Mark::Within => 0,
            Mark::Reached => 1,
            Mark::Unknown => 2,
            Mark::Broken => 3,
        };
        let worst = steps.max_by_key(|step| (rank(step.mark), step.value));
        worst.map_or((0, Mark::Within), |step| (step.value, step.mark))
    }

    fn minutes(&self, place: usize) -> (u64, u64) {
        let from = self.first + place as u64 * self.pace;
        (from, from + self.pace)
    }

    fn charges(&mut self) {
        self.line("");
        self.line("ticket feeder/line, x2: rate 2");
        self.scale();
        let mut charges: Vec<&Charge> = self.evening.charges.iter().collect();
        charges.sort_by_key(|charge| (charge.feeder, charge.line, charge.ticket));
        for charge in charges {
            let cell = |place| cells::of_charge(self.evening, charge, self.minutes(place));
            let cells = (0..self.width).map(cell).collect();
            let rate = if charge.rate == 1 { String::new() } else { format!("x{}", charge.rate) };
            let label = format!("{:>6} {}/{} {rate:<2}", charge.ticket, charge.feeder, charge.line);
            self.row(&label, cells, &late(self.evening, charge));
        }
        self.line("");
        let unknown = (!drawn_whole(self.evening)).then_some(UNKNOWN);
        let legend: Vec<&str> = LEGEND.into_iter().chain(unknown).collect();
        self.out.push_str(&flowing(&legend, "  ", self.look.columns));
        self.line("");
    }

    fn row(&mut self, label: &str, cells: Cells, right: &str) {
        let _ = write!(self.out, "{label:>LEFT$}|");
        let mut last = Tint::Plain;
        for (character, tint) in &cells {
            if self.look.colour && *tint != last {
                let _ = write!(self.out, "\u{1b}[0m\u{1b}[{}m", tint.code());
                last = *tint;
            }
            self.out.push(*character);
        }
        if last != Tint::Plain {
            self.out.push_str("\u{1b}[0m");
        }
        let _ = writeln!(self.out, "|{right}");
    }
}

/// What stands behind the time axis.
fn late(evening: &Evening, charge: &Charge) -> String {
    match charge.start_after(evening.last()) {
        None => " ?".to_string(),
        Some(start) if charge.withdrawn.is_none() && charge.lateness(start) > 0 => {
            format!("+{}", charge.lateness(start))
        }
        Some(_) => String::new(),
    }
}

/// Whether the start of every charge that stands was told.
fn drawn_whole(evening: &Evening) -> bool {
    !evening.charges.iter().any(|charge| charge.unknown(evening.last()))
}
