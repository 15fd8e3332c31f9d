//! The line protocol: one call in a line, one answer in a line.
//!
//! | line | answer |
//! | --- | --- |
//! | `open COUNT W N c r` and up to three further `N c r` | `open 0 D1 ..`, or `refused K` |
//! | `preview feeder line p d rate` | `start S`, or `refused K` |
//! | `commit feeder line p d rate S` | `ticket T start S`, or `refused K` |
//! | `move target places` | `moved R dropped X T S T S ..`, or `refused K` |
//! | `offer feeder s1 s2 ..` | `plan CAUSE BEFORE AFTER ROUNDS`, or `refused K` |
//! | `latest feeder` | `plan ..`, or `refused 29` |
//! | `lines feeder allowance` | `plan ..`, or `refused K` |
//! | `enquire T` | `waiting S RATE`, `charging S E RATE`, or `refused 15` |
//! | `board places t1 t2 ..` | `board LOOKED A1 A2 ..`, or `refused K` |
//! | `withdraw T` | `withdrawn`, or `refused K` |
//!
//! Words are separated by exactly one space byte. Empty lines and lines that
//! begin with `#` get no answer. Anything else gets `error` and a reason.

use crate::yard::{
    Committed, Found, Moved, Opening, Order, Planned, Refusal, Settings, MOST_FEEDERS,
};

/// More bytes than these in a line, without the line feed, are too many.
pub const LONGEST_LINE: usize = 4096;
/// More places than these are never lent to a call.
pub const MOST_PLACES: u32 = 4096;

#[derive(Clone, Debug, PartialEq, Eq)]
pub enum Call {
    Open { opening: Opening },
    Preview { order: Order },
    Commit { order: Order, shown: u32 },
    Move { target: u32, places: u32 },
    Offer { feeder: u32, starts: Vec<u32> },
    Latest { feeder: u32 },
    Lines { feeder: u32, allowance: u32 },
    Enquire { ticket: u32 },
    Board { places: u32, tickets: Vec<u32> },
    Withdraw { ticket: u32 },
}

#[derive(Clone, Copy, Debug, PartialEq, Eq)]
pub enum Fault {
    UnknownCall,
    NotANumber,
    NumberTooLarge,
    MissingNumber,
    ExtraNumber,
    LineTooLong,
}

impl Fault {
    pub fn reason(self) -> &'static str {
        match self {
            Fault::UnknownCall => "unknown call",
            Fault::NotANumber => "not a number",
            Fault::NumberTooLarge => "number too large",
            Fault::MissingNumber => "missing number",
            Fault::ExtraNumber => "extra number",
            Fault::LineTooLong => "line too long",
        }
    }
}

/// Reads one line (without its line feed). `Ok(None)` is a line passed over.
/// The length is judged first, so that an endless comment is an error too.
pub fn read_call(text: &[u8]) -> Result<Option<Call>, Fault> {
    if text.len() > LONGEST_LINE {
        return Err(Fault::LineTooLong);
    }
    if text.is_empty() || text[0] == b'#' {
        return Ok(None);
    }
    let mut words = text.split(|byte| *byte == b' ');
    let call = match words.next().unwrap_or(b"") {
        b"open" => opening(words).map(|opening| Call::Open { opening }),
        b"preview" => numbers(words).map(|[feeder, line, time, due, rate]| {
            let order = Order { feeder, line, time, due, rate };
            Call::Preview { order }
        }),
        b"commit" => numbers(words).map(|[feeder, line, time, due, rate, shown]| {
            let order = Order { feeder, line, time, due, rate };
            Call::Commit { order, shown }
        }),
        b"move" => numbers(words).map(|[target, places]| Call::Move { target, places }),
        b"offer" => headed(words).map(|(feeder, starts)| Call::Offer { feeder, starts }),
        b"latest" => numbers(words).map(|[feeder]| Call::Latest { feeder }),
        b"lines" => numbers(words).map(|[feeder, allowance]| Call::Lines { feeder, allowance }),
        b"enquire" => numbers(words).map(|[ticket]| Call::Enquire { ticket }),
        b"board" => headed(words).map(|(places, tickets)| Call::Board { places, tickets }),
        b"withdraw" => numbers(words).map(|[ticket]| Call::Withdraw { ticket }),
        _ => Err(Fault::UnknownCall),
    };
    call.map(Some)
}

/// Exactly `K` numbers, judged from left to right.
fn numbers<'a, const K: usize>(
    mut words: impl Iterator<Item = &'a [u8]>,
) -> Result<[u32; K], Fault> {
    let values = first_numbers(&mut words)?;
    match words.next() {
        Some(_) => Err(Fault::ExtraNumber),
        None => Ok(values),
    }
}

/// The next `K` numbers, whatever follows.
fn first_numbers<'a, const K: usize>(
    words: &mut impl Iterator<Item = &'a [u8]>,
) -> Result<[u32; K], Fault> {
    let mut values = [0; K];
    for value in &mut values {
        *value = number(words.next().ok_or(Fault::MissingNumber)?)?;
    }
    Ok(values)
}

/// The count and W, one feeder's settings, and up to three further ones: where a word follows
/// there have to be three numbers, and after the fourth feeder there is one too many.
fn opening<'a>(words: impl Iterator<Item = &'a [u8]>) -> Result<Opening, Fault> {
    let mut words = words.peekable();
    let [count, site_limit] = first_numbers(&mut words)?;
    let mut feeders = Vec::with_capacity(MOST_FEEDERS);
    while feeders.is_empty() || words.peek().is_some() {
        if feeders.len() == MOST_FEEDERS {
            return Err(Fault::ExtraNumber);
        }
        let [limit, percent, tail] = first_numbers(&mut words)?;
        feeders.push(Settings { limit, percent, tail });
    }
    Ok(Opening { count, site_limit, feeders })
}

/// As many numbers as the line has, judged from left to right: whether they are
/// too many is the station's to say.
fn list<'a>(words: impl Iterator<Item = &'a [u8]>) -> Result<Vec<u32>, Fault> {
    words.map(number).collect()
}

/// One number, and then a list: the feeder and the starts, or how many places are lent and the
/// tickets.
fn headed<'a>(mut words: impl Iterator<Item = &'a [u8]>) -> Result<(u32, Vec<u32>), Fault> {
    let [head] = first_numbers(&mut words)?;
    Ok((head, list(words)?))
}

/// A decimal number of 32 bits. Leading zeros don't count, so the digits alone
/// say nothing about the size; the value is watched instead.
fn number(word: &[u8]) -> Result<u32, Fault> {
    if word.is_empty() || !word.iter().all(u8::is_ascii_digit) {
        return Err(Fault::NotANumber);
    }
    let mut value: u64 = 0;
    for digit in word {
        value = value * 10 + u64::from(digit - b'0');
        if value > u64::from(u32::MAX) {
            return Err(Fault::NumberTooLarge);
        }
    }
    Ok(value as u32)
}

/// Writes the line of a call; `read_call` reads it back.
pub fn write_call(call: &Call) -> String {
    match call {
        Call::Open { opening } => write_opening(opening),
        Call::Preview { order } => format!("preview {}", write_order(order)),
        Call::Commit { order, shown } => format!("commit {} {shown}", write_order(order)),
        Call::Move { target, places } => format!("move {target} {places}"),
        Call::Offer { feeder, starts } => format!("offer {feeder}{}", write_list(starts)),
        Call::Latest { feeder } => format!("latest {feeder}"),
        Call::Lines { feeder, allowance } => format!("lines {feeder} {allowance}"),
        Call::Enquire { ticket } => format!("enquire {ticket}"),
        Call::Board { places, tickets } => format!("board {places}{}", write_list(tickets)),
        Call::Withdraw { ticket } => format!("withdraw {ticket}"),
    }
}

fn write_list(numbers: &[u32]) -> String {
    let words: Vec<String> = numbers.iter().map(|number| format!(" {number}")).collect();
    words.concat()
}

fn write_order(order: &Order) -> String {
    let Order { feeder, line, time, due, rate } = order;
    format!("{feeder} {line} {time} {due} {rate}")
}

fn write_opening(opening: &Opening) -> String {
    let Opening { count, site_limit, feeders } = opening;
    let settings = |feeder: &Settings| [feeder.limit, feeder.percent, feeder.tail];
    let numbers: Vec<u32> = feeders.iter().flat_map(settings).collect();
    format!("open {count} {site_limit}{}", write_list(&numbers))
}

/// Appends a word and numbers to an answer, separated by single spaces.
fn words(out: &mut Vec<u8>, word: &str, values: &[u64]) {
    out.extend_from_slice(word.as_bytes());
    for value in values {
        out.push(b' ');
        digits(out, *value);
    }
}

/// Written by hand, because the fast program spends much of its time here.
fn digits(out: &mut Vec<u8>, mut value: u64) {
    let mut buffer = [0; 20];
    let mut place = buffer.len();
    loop {
        place -= 1;
        buffer[place] = b'0' + (value % 10) as u8;
        value /= 10;
        if value == 0 {
            break;
        }
    }
    out.extend_from_slice(&buffer[place..]);
}

pub fn write_fault(out: &mut Vec<u8>, fault: Fault) {
    out.extend_from_slice(b"error ");
    out.extend_from_slice(fault.reason().as_bytes());
}

pub fn write_refusal(out: &mut Vec<u8>, refusal: Refusal) {
    words(out, "refused", &[u64::from(refusal)]);
}

/// One bound for each feeder.
pub fn write_opened(out: &mut Vec<u8>, bounds: &[u32]) {
    words(out, "open", &[0]);
    for bound in bounds {
        words(out, "", &[u64::from(*bound)]);
    }
}

pub fn write_previewed(out: &mut Vec<u8>, start: u64) {
    words(out, "start", &[start]);
}

pub fn write_committed(out: &mut Vec<u8>, committed: Committed) {
    words(out, "ticket", &[u64::from(committed.ticket)]);
    words(out, " start", &[committed.start]);
}

/// The pairs are read from the lent list, as a caller would.
pub fn write_moved(out: &mut Vec<u8>, moved: Moved, report: &[u32]) {
    words(out, "moved", &[moved.reported as u64]);
    words(out, " dropped", &[moved.dropped as u64]);
    for value in &report[..2 * moved.reported] {
        words(out, "", &[u64::from(*value)]);
    }
}

pub fn write_planned(out: &mut Vec<u8>, planned: Planned) {
    let Planned { cause, before, after, rounds } = planned;
    words(out, "plan", &[u64::from(cause), before, after, u64::from(rounds)]);
}

pub fn write_found(out: &mut Vec<u8>, found: Found) {
    match found {
        Found::Waiting { start, rate } => words(out, "waiting", &[start, rate.into()]),
        Found::Charging { start, end, rate } => {
            words(out, "charging", &[start, end, rate.into()]);
        }
    }
}

/// The starts are read from the lent list, one for each ticket asked.
pub fn write_board(out: &mut Vec<u8>, looked: usize, starts: &[u32]) {
    words(out, "board", &[looked as u64]);
    for start in starts {
        words(out, "", &[u64::from(*start)]);
    }
}

/// A bare acknowledgement.
pub fn write_withdrawn(out: &mut Vec<u8>) {
    words(out, "withdrawn", &[]);
}
