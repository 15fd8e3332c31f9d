//! One call on a station with so many charges: its scripts and its times.

use super::day::ALLOWANCE;
use super::pair::{Pair, Times, LONG_ENOUGH};
use super::states;
use crate::fast::Station;
use crate::generate;
use crate::protocol::{write_call, Call};
use crate::script::{answers_of, repeated, show, Line};
use crate::yard::Order;

const MOST_TURNS: usize = 5_000;

/// A station is made by `first`; what `with` costs more than `without` is measured.
pub struct Measured {
    first: Vec<Line>,
    with: Vec<Line>,
    without: Vec<Line>,
    /// The ticket that the first turn of `with` withdraws in its end; the next turn's is one
    /// higher.
    withdrawn: Option<u32>,
    /// Calls that `with` has and `without` has not.
    calls: usize,
    /// The calls change the station, so it is made anew for each turn.
    anew: bool,
    /// Rounds of a replan by lines, else 0.
    pub rounds: u64,
}

/// Times of so many calls.
pub struct Cost {
    pub times: Times,
    pub calls: f64,
}

impl Measured {
    /// The last of so many commits.
    fn last_commits(first: Vec<Line>, orders: Vec<Line>) -> Measured {
        let calls = orders.len();
        let (with, without, withdrawn) = (orders, Vec::new(), None);
        Measured { first, with, without, withdrawn, calls, anew: true, rounds: 0 }
    }

    /// A withdrawal that takes the commit before it back, so that the station is the same
    /// again. The preview of the same order is taken off, which looks for the same start.
    fn taken_back(first: Vec<Line>, commit: Line, preview: Line, held: usize) -> Measured {
        let (with, without, withdrawn) = (vec![commit], vec![preview], Some(held as u32));
        Measured { first, with, without, withdrawn, calls: 1, anew: false, rounds: 0 }
    }

    /// A call that leaves the station as it is.
    fn repeatable(first: Vec<Line>, call: Line) -> Measured {
        let (with, without, withdrawn) = (vec![call], Vec::new(), None);
        Measured { first, with, without, withdrawn, calls: 1, anew: false, rounds: 0 }
    }

    /// The call stands in `first` already once: a plan that is better than the held
    /// one is taken there, and from then on the call keeps the plan.
    fn kept(mut first: Vec<Line>, call: Line) -> Measured {
        first.push(call.clone());
        let answers = answers_of(Station::fresh(1, 100, 0), &first);
        let last = show(answers.last().map_or(b"".as_slice(), Vec::as_slice));
        let rounds = last.rsplit(' ').next().and_then(|word| word.parse().ok()).unwrap_or(0);
        Measured { rounds, ..Measured::repeatable(first, call) }
    }

    /// Scripts with the calls and without them.
    fn scripts(&self, turns: usize) -> [Vec<Line>; 2] {
        let [mut with, without] = [&self.with, &self.without].map(|more| match self.anew {
            true => repeated(&[self.first.as_slice(), more].concat(), turns),
            false => [self.first.clone(), repeated(more, turns)].concat(),
        });
        if let Some(ticket) = self.withdrawn {
            with = [self.first.clone(), self.turns_with_withdrawal(ticket, turns)].concat();
        }
        [with, without]
    }

    fn turns_with_withdrawal(&self, first: u32, turns: usize) -> Vec<Line> {
        let turn = |ticket: u32| {
            let withdraw = write_call(&Call::Withdraw { ticket }).into_bytes();
            [self.with.clone(), vec![withdraw]].concat()
        };
        (first..).take(turns).flat_map(turn).collect()
    }

    /// So many turns that the program is busy for long enough.
    fn turns(&self, pair: &Pair) -> Result<usize, String> {
        let mut turns = 1;
        // What makes the station once is not what is measured.
        let first = if self.anew { 0.0 } else { pair.once(&self.first)? };
        for _ in 0..3 {
            let seconds = (pair.once(&self.scripts(turns)[0])? - first).max(1e-4);
            turns = (turns as f64 * LONG_ENOUGH / seconds).ceil() as usize;
            turns = turns.clamp(1, MOST_TURNS);
        }
        Ok(turns)
    }

    pub fn cost(&self, pair: &Pair) -> Result<Cost, String> {
        pair.answers(&self.scripts(1)[0])?;
        self.times(pair)
    }

    /// The same of programs whose answers need not be alike.
    pub fn times(&self, pair: &Pair) -> Result<Cost, String> {
        let turns = self.turns(pair)?;
        let [with, without] = self.scripts(turns);
        let calls = (turns * self.calls) as f64;
        Ok(Cost { times: pair.difference(&with, &without)?, calls })
    }
}

fn lines_call() -> Line {
    write_call(&Call::Lines { feeder: 1, allowance: ALLOWANCE }).into_bytes()
}

/// A commit that is the last of so many and finds room at once.
pub fn typical_commit(held: usize) -> Measured {
    let first = states::lasting(held - 1);
    let (with, without) = (states::passing(true), states::passing(false));
    let calls = states::PASSING as usize;
    Measured { first, with, without, withdrawn: None, calls, anew: true, rounds: 0 }
}

pub fn typical_latest(held: usize) -> Measured {
    Measured::kept(states::peak(held), b"latest 1".to_vec())
}

pub fn typical_lines(held: usize) -> Measured {
    Measured::kept(states::peak(held), lines_call())
}

/// One round with 180 waiting, spread over the lines or all on one.
pub fn one_round(spread: bool) -> Measured {
    Measured::kept(states::one_round(spread), lines_call())
}

/// One round with 180 waiting on one line, all equal.
pub fn all_equal() -> Measured {
    Measured::kept(states::all_equal(), lines_call())
}

/// The held plan, offered again.
pub fn typical_offer(held: usize) -> Measured {
    offer_again(states::peak(held), 1, 1..=held as u32)
}

/// The starts that the tickets of a feeder have, offered to it.
fn offer_again(mut first: Vec<Line>, feeder: u32, tickets: impl Iterator<Item = u32>) -> Measured {
    first.extend(tickets.map(|ticket| {
        let call = Call::Enquire { ticket };
        write_call(&call).into_bytes()
    }));
    let answers = answers_of(Station::fresh(1, 100, 0), &first);
    let start = |answer: &Line| {
        let text = show(answer);
        text.strip_prefix("waiting ")?.split(' ').next()?.parse().ok()
    };
    let starts = answers.iter().filter_map(start).collect();
    Measured::kept(first, write_call(&Call::Offer { feeder, starts }).into_bytes())
}

/// Calls on the last of so many feeders, each with 180 charges (N14): the order of one more,
/// which the last one has a place for, the held plan offered again, and both replans.
pub fn of_site(feeders: u32) -> [(&'static str, Measured); 4] {
    let full = || states::site(feeders, 180);
    let call = |call: Call| write_call(&call).into_bytes();
    let order = Order { feeder: feeders, line: 1, time: 120, due: 600, rate: 1 };
    let preview = call(Call::Preview { order });
    let latest = call(Call::Latest { feeder: feeders });
    let lines = call(Call::Lines { feeder: feeders, allowance: ALLOWANCE });
    let tickets = (1..=180).map(|place| place * feeders);
    [
        ("preview", Measured::repeatable(states::site(feeders, 179), preview)),
        ("offer", offer_again(full(), feeders, tickets)),
        ("replan by latest start", Measured::kept(full(), latest)),
        ("replan by lines", Measured::kept(full(), lines)),
    ]
}

/// The last sixth of so many commits.
pub fn worst_commit(held: usize) -> Measured {
    let last = held / 6;
    Measured::last_commits(states::dense(held - last).0, states::behind_dense(last as u32))
}

/// An opening, whatever stood there before.
pub fn opening() -> Measured {
    Measured::repeatable(states::lasting(1), states::opening())
}

/// A move that goes nowhere.
pub fn typical_move(held: usize) -> Measured {
    let call = Call::Move { target: 0, places: 360 };
    Measured::repeatable(states::lasting(held), write_call(&call).into_bytes())
}

/// For the middle one of the charges held.
pub fn typical_enquiry(held: usize) -> Measured {
    let call = Call::Enquire { ticket: held as u32 / 2 };
    Measured::repeatable(states::lasting(held), write_call(&call).into_bytes())
}

/// Unlike a commit it can be asked for again on the same full plan.
pub fn worst_preview(held: usize) -> Measured {
    Measured::repeatable(states::dense(held - 1).0, states::preview_behind_dense())
}

pub fn typical_preview(held: usize) -> Measured {
    Measured::repeatable(states::lasting(held - 1), states::preview_at_once())
}

/// A preview that finds room at once, before all charges held but the first.
pub fn preview_before_all(held: usize) -> Measured {
    Measured::repeatable(states::behind(held - 1), states::preview_at_once())
}

/// A board of so many tickets at a full station, spread evenly over those held.
pub fn board(asked: usize) -> Measured {
    board_of(asked, 180)
}

/// The same at a station with so many charges.
pub fn board_of(asked: usize, held: usize) -> Measured {
    let tickets = (1..=asked).map(|place| (held * place / asked) as u32).collect();
    let call = Call::Board { places: asked as u32, tickets };
    Measured::repeatable(states::peak(held), write_call(&call).into_bytes())
}

/// A withdrawal of the last of so many charges.
pub fn typical_withdrawal(held: usize) -> Measured {
    let (commit, preview) = (states::commit_at_once(), states::preview_at_once());
    Measured::taken_back(states::lasting(held - 1), commit, preview, held)
}

/// The same out of a plan of many steps.
pub fn worst_withdrawal(held: usize) -> Measured {
    let (commit, preview) = (states::commit_behind_dense(0), states::preview_behind_dense());
    Measured::taken_back(states::dense(held - 1).0, commit, preview, held)
}

pub fn worst_latest() -> Measured {
    Measured::kept(states::queue(180), b"latest 1".to_vec())
}

pub fn worst_offer() -> Measured {
    let (first, offer) = states::dense(180);
    Measured::kept(first, offer)
}

/// The opening and the orders of the kind `spent`.
pub fn worst_lines() -> Result<Measured, String> {
    let script = generate::script_of_kind("spent", 1, 0).ok_or("no kind spent")?;
    let first = script.lines.into_iter().take(181).collect();
    Ok(Measured::kept(first, lines_call()))
}

#[cfg(test)]
mod tests {
    use super::*;

    #[test]
    fn scripts_differ_by_the_calls() {
        let orders = [typical_commit(18), worst_commit(180), worst_commit(20), worst_preview(180)];
        for measured in orders.into_iter().chain([typical_latest(18)]) {
            let [with, without] = measured.scripts(4);
            assert_eq!(with.len() - without.len(), 4 * measured.calls);
        }
    }

    #[test]
    fn calls_that_keep_the_plan() {
        let kept = [typical_latest(180), typical_lines(180), typical_offer(180)];
        let worst = [worst_latest(), worst_offer()];
        for measured in kept.iter().chain(&worst) {
            let answers = answers_of(Station::fresh(1, 100, 0), &measured.scripts(2)[0]);
            let last = show(&answers[answers.len() - 1]);
            assert!(last.starts_with("plan 7 "), "{last}");
        }
    }

    /// Nothing that is measured ends with a refusal.
    #[test]
    fn commits_and_previews_that_are_answered() {
        for held in [20, 60, 120, 180] {
            let commits = [typical_commit(held), worst_commit(held)];
            let previews = [typical_preview(held), worst_preview(held), preview_before_all(held)];
            for measured in commits.into_iter().chain(previews) {
                let answers = answers_of(Station::fresh(1, 100, 0), &measured.scripts(2)[0]);
                let refused = answers.iter().find(|answer| answer.starts_with(b"refused"));
                assert_eq!(refused.map(|answer| show(answer)), None);
            }
        }
    }

    #[test]
    fn previews_that_find_room_at_once_or_behind_all() {
        for held in [20, 60, 120, 180] {
            let last = |measured: Measured| {
                let answers = answers_of(Station::fresh(1, 100, 0), &measured.scripts(1)[0]);
                answers.last().map(|answer| show(answer))
            };
            for measured in [typical_preview(held), preview_before_all(held)] {
                assert_eq!(last(measured), Some("start 0".to_string()));
            }
            assert_eq!(last(worst_preview(held)), Some("start 2880".to_string()));
        }
    }

    /// The last ticket is the last one held, so each board walks over all charges.
    #[test]
    fn boards_of_held_tickets() {
        for asked in [1, 20, 180] {
            let answers = answers_of(Station::fresh(1, 100, 0), &board(asked).scripts(2)[0]);
            let last = show(&answers[answers.len() - 1]);
            assert!(last.starts_with("board 180 "), "{last}");
            assert!(!last.contains("4294967295"), "{last}");
            assert_eq!(last.split(' ').count(), 2 + asked);
        }
    }

    #[test]
    fn withdrawals_that_are_not_refused() {
        for held in [20, 60, 120, 180] {
            for measured in [typical_withdrawal(held), worst_withdrawal(held)] {
                let [with, without] = measured.scripts(3);
                let with = answers_of(Station::fresh(1, 100, 0), &with);
                let without = answers_of(Station::fresh(1, 100, 0), &without);
                assert_eq!(with.len() - without.len(), 3);
                let shown = show(&without[without.len() - 1]);
                for (turn, two) in with[with.len() - 6..].chunks(2).enumerate() {
                    assert_eq!(show(&two[0]), format!("ticket {} {shown}", held + turn));
                    assert_eq!(two[1], b"withdrawn");
                }
            }
        }
    }

    #[test]
    fn rounds_that_are_the_last() {
        for measured in [one_round(true), one_round(false), all_equal()] {
            assert_eq!(measured.rounds, 1);
            let answers = answers_of(Station::fresh(1, 100, 0), &measured.scripts(2)[0]);
            assert!(show(&answers[answers.len() - 1]).starts_with("plan 7 "));
        }
    }

    /// On sites an order finds a start, and plans come to the last question.
    #[test]
    fn calls_on_sites() {
        for feeders in [1, 2, 4] {
            for (title, measured) in of_site(feeders) {
                let answers = answers_of(Station::fresh(1, 100, 0), &measured.scripts(2)[0]);
                let refused = answers.iter().find(|answer| answer.starts_with(b"refused"));
                assert_eq!(refused.map(|answer| show(answer)), None, "{title}");
                let last = show(&answers[answers.len() - 1]);
                let expected = if title == "preview" { "start " } else { "plan 7 " };
                assert!(last.starts_with(expected), "{feeders} feeders, {title}: {last}");
            }
        }
    }

    #[test]
    fn the_worst_replan_by_lines_makes_a_thousand_rounds() {
        assert_eq!(worst_lines().map(|measured| measured.rounds), Ok(1_000));
    }
}
