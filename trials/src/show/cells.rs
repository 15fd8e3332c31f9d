//! What one character of the terminal shows: a number of a lane, or what a charge does. Colour only
//! says again what the character says.

use super::charge::{Charge, State};
use super::evening::Evening;
use super::lanes::Mark;

/// A colour that says again what a character says.
#[derive(Clone, Copy, PartialEq, Eq)]
pub enum Tint {
    Plain,
    Faint,
    Green,
    Yellow,
    Cyan,
    Red,
}

impl Tint {
    pub fn code(self) -> &'static str {
        match self {
            Tint::Plain => "0",
            Tint::Faint => "2",
            Tint::Green => "32",
            Tint::Yellow => "1;33",
            Tint::Cyan => "36",
            Tint::Red => "1;97;41",
        }
    }
}

/// Characters with their colours.
pub type Cells = Vec<(char, Tint)>;

/// What a charge does in the minutes of a character, from one up to another.
pub fn of_charge(evening: &Evening, charge: &Charge, (from, to): (u64, u64)) -> (char, Tint) {
    let within = |first: u64, last: u64| first < to && from < last;
    let ordered = charge.ordered.minute;
    let here = |minute: u64| from <= minute && minute < to;
    if let Some(withdrawn) = charge.withdrawn {
        return match () {
            () if here(withdrawn.minute) => ('x', Tint::Yellow),
            () if here(ordered) => ('o', Tint::Faint),
            () if within(ordered, withdrawn.minute) => ('.', Tint::Faint),
            () => (' ', Tint::Plain),
        };
    }
    let known = charge.start_after(evening.last());
    let Some(start) = known.or(charge.last_known(evening.last())) else {
        return (' ', Tint::Plain);
    };
    let (end, clear) = (charge.end(start), charge.clear(start));
    let begun = charge.state(evening.last(), evening.clock) != State::Waiting;
    match () {
        () if known.is_none() && within(start, clear) => ('?', Tint::Faint),
        () if within(start, ordered) => ('!', Tint::Red),
        // A tail is shorter than most characters; the last one of its charge shows it.
        () if end < clear && here(clear - 1) && start < from => ('~', Tint::Cyan),
        () if within(start, end) && from >= charge.due => late_cell(begun),
        () if within(start, end) => (if begun { '#' } else { '-' }, Tint::Green),
        () if within(end, clear) => ('~', Tint::Cyan),
        () if here(ordered) => ('o', Tint::Faint),
        () if within(ordered, start) => ('.', Tint::Faint),
        () => (' ', Tint::Plain),
    }
}

fn late_cell(begun: bool) -> (char, Tint) {
    (if begun { '%' } else { '+' }, Tint::Yellow)
}

/// A digit of a number, the last being of row 0; a point for nothing at all.
pub fn digit(value: u64, row: u32) -> char {
    let above = value / 10u64.pow(row);
    match (above, row) {
        (0, 0) => '.',
        (0, _) => ' ',
        _ => char::from_digit((above % 10) as u32, 10).unwrap_or(' '),
    }
}

/// What stands below a number.
pub fn sign(mark: Mark) -> char {
    match mark {
        Mark::Within => ' ',
        Mark::Reached => '=',
        Mark::Broken => '!',
        Mark::Unknown => '?',
    }
}

pub fn tint(mark: Mark) -> Tint {
    match mark {
        Mark::Within => Tint::Plain,
        Mark::Reached => Tint::Yellow,
        Mark::Broken => Tint::Red,
        Mark::Unknown => Tint::Faint,
    }
}
