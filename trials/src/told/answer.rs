//! An answer by its words. Whether it is right is not asked here, only whether it is one to its
//! call at all.

use crate::protocol::{Call, Fault};
use crate::yard::MOST_FEEDERS;

#[derive(Clone, Debug, PartialEq, Eq)]
pub enum Told {
    /// The line is no call, and the answer has the reason.
    Error,
    Refused(u64),
    Opened {
        /// One for each feeder.
        bounds: Vec<u64>,
    },
    Previewed {
        start: u64,
    },
    Accepted {
        ticket: u64,
        start: u64,
    },
    Moved {
        /// Tickets with their starts.
        reported: Vec<(u64, u64)>,
        dropped: u64,
    },
    Planned {
        cause: u64,
        before: u64,
        after: u64,
    },
    Waiting {
        start: u64,
        rate: u64,
    },
    Charging {
        start: u64,
        end: u64,
        rate: u64,
    },
    Board {
        looked: u64,
        /// One for each ticket asked.
        starts: Vec<u64>,
    },
    Withdrawn,
}

impl Told {
    /// None where the answer does not fit: other words, or another number of numbers.
    pub fn of(call: &Result<Call, Fault>, answer: &str) -> Option<Told> {
        let call = match call {
            Ok(call) => call,
            Err(fault) => {
                return (answer == format!("error {}", fault.reason())).then_some(Told::Error);
            }
        };
        let words: Vec<&str> = answer.split(' ').collect();
        match words.as_slice() {
            ["refused", refusal] => Some(Told::Refused(number(refusal)?)),
            words => accepting(call, words),
        }
    }
}

/// An answer that is no refusal.
fn accepting(call: &Call, words: &[&str]) -> Option<Told> {
    match (call, words) {
        (Call::Open { opening }, ["open", "0", bounds @ ..]) => {
            let bounds = numbers(bounds)?;
            let count = opening.count as usize;
            (bounds.len() == count && (1..=MOST_FEEDERS).contains(&count))
                .then_some(Told::Opened { bounds })
        }
        (Call::Preview { .. }, ["start", start]) => Some(Told::Previewed { start: number(start)? }),
        (Call::Commit { .. }, ["ticket", ticket, "start", start]) => {
            Some(Told::Accepted { ticket: number(ticket)?, start: number(start)? })
        }
        (Call::Move { .. }, ["moved", count, "dropped", dropped, pairs @ ..]) => {
            let pairs = numbers(pairs)?;
            let reported: Vec<(u64, u64)> =
                pairs.chunks_exact(2).map(|pair| (pair[0], pair[1])).collect();
            let whole = pairs.len() % 2 == 0 && number(count)? == reported.len() as u64;
            whole.then_some(Told::Moved { reported, dropped: number(dropped)? })
        }
        (
            Call::Offer { .. } | Call::Latest { .. } | Call::Lines { .. },
            ["plan", cause, before, after, rounds],
        ) => {
            number(rounds)?;
            let [cause, before, after] = [number(cause)?, long(before)?, long(after)?];
            Some(Told::Planned { cause, before, after })
        }
        (Call::Enquire { .. }, ["waiting", start, rate]) => {
            Some(Told::Waiting { start: number(start)?, rate: number(rate)? })
        }
        (Call::Enquire { .. }, ["charging", start, end, rate]) => {
            let [start, end, rate] = [number(start)?, number(end)?, number(rate)?];
            Some(Told::Charging { start, end, rate })
        }
        (Call::Board { tickets, .. }, ["board", looked, starts @ ..]) => {
            let (looked, starts) = (number(looked)?, numbers(starts)?);
            (starts.len() == tickets.len()).then_some(Told::Board { looked, starts })
        }
        (Call::Withdraw { .. }, ["withdrawn"]) => Some(Told::Withdrawn),
        _ => None,
    }
}

/// Digits alone; a sign would be read too.
fn long(word: &str) -> Option<u64> {
    word.bytes().all(|byte| byte.is_ascii_digit()).then(|| word.parse().ok())?
}

/// All numbers but lateness have 32 bits, so that their sums fit in 64.
fn number(word: &str) -> Option<u64> {
    long(word).filter(|number| *number <= u32::MAX.into())
}

fn numbers(words: &[&str]) -> Option<Vec<u64>> {
    words.iter().map(|word| number(word)).collect()
}
