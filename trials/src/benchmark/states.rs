//! Stations with so many charges, as the scripts that lead to them.

use crate::fast::Station;
use crate::fill::{fill, open_commit};
use crate::generate::cars;
use crate::protocol::{write_call, Call};
use crate::random::Random;
use crate::script::Line;
use crate::yard::{Opening, Order, Settings};

/// With this seed both replans of `peak` come to the last question of the common
/// test at each number of cars measured; with most others some end before it.
const SEED: u64 = 18;
/// The same for `site`.
const SEED_OF_SITES: u64 = 14;
/// A due minute that no charge here misses.
const LOOSE: u32 = 2_000_000;

fn line(call: &Call) -> Line {
    write_call(call).into_bytes()
}

/// An order of rate 1 whose start is still open.
fn order(on: u32, time: u32, due: u32) -> Line {
    open_commit(Order { feeder: 1, line: on, time, due, rate: 1 })
}

/// The lines with the starts that the fast program would show.
fn filled(lines: Vec<Line>) -> Vec<Line> {
    fill(Station::fresh(1, 100, 0), &lines)
}

/// A peak of the source's scenario 2, even lines, N = 20 and Δ = 0.2: all cars at
/// once and all of them waiting.
pub fn peak(held: usize) -> Vec<Line> {
    let cars = cars::of_day(&mut Random::new(SEED), 2, true, held as u64);
    let mut lines = vec![line(&Call::Open { opening: Opening::of_one(20, 20, 0) })];
    let orders = cars.iter().map(|car| order(car.line, car.time, car.due - car.arrival));
    lines.extend(orders);
    filled(lines)
}

/// A site of so many feeders (N14), each with cars as those of `peak` or, on the last one, with
/// the first of them. Every feeder may draw 60 and the site three quarters of that for each, so
/// that they wait for each other. Orders go from feeder to feeder.
pub fn site(feeders: u32, on_the_last: usize) -> Vec<Line> {
    let cars = cars::of_day(&mut Random::new(SEED_OF_SITES), 2, true, 180);
    let settings = vec![Settings { limit: 20, percent: 20, tail: 0 }; feeders as usize];
    let opening = Opening { count: feeders, site_limit: 45 * feeders, feeders: settings };
    let mut lines = vec![line(&Call::Open { opening })];
    for (place, car) in cars.iter().enumerate() {
        for feeder in (1..=feeders).filter(|feeder| *feeder < feeders || place < on_the_last) {
            let (due, rate) = (car.due - car.arrival, 1);
            let order = Order { feeder, line: car.line, time: car.time, due, rate };
            lines.push(open_commit(order));
        }
    }
    filled(lines)
}

/// The same cars with 180 waiting and D = N, which makes every round the last one; on
/// their own lines or all on line 1.
pub fn one_round(spread: bool) -> Vec<Line> {
    let cars = cars::of_day(&mut Random::new(SEED), 2, true, 180);
    let mut lines = vec![line(&Call::Open { opening: Opening::of_one(20, 100, 0) })];
    lines.extend(cars.iter().map(|car| {
        let on = if spread { car.line } else { 1 };
        order(on, car.time, car.due - car.arrival)
    }));
    filled(lines)
}

/// 180 charges of line 1 that differ in nothing but their tickets.
pub fn all_equal() -> Vec<Line> {
    let mut lines = vec![line(&Call::Open { opening: Opening::of_one(20, 100, 0) })];
    lines.extend((0..180).map(|_| order(1, 60, 240)));
    filled(lines)
}

/// So many minutes pass before a charge of `lasting` ends.
pub const PASSING: u32 = 1_000;

pub fn opening() -> Line {
    line(&Call::Open { opening: Opening::of_one(20, 40, 0) })
}

/// Charges that last and leave a point of line 3 free from the clock on, with ends in
/// minutes of their own. Few go to line 3; the bound makes most of the others wait.
pub fn lasting(held: usize) -> Vec<Line> {
    let mut lines = vec![opening()];
    for place in 0..held as u32 {
        let on = if place % 9 == 8 { 3 } else { 1 + place % 2 };
        lines.push(order(on, PASSING + 100 + 37 * place % 300, LOOSE));
    }
    filled(lines)
}

/// An order that finds a point of line 3 free at once, and takes it for a minute.
const AT_ONCE: Order = Order { feeder: 1, line: 3, time: 1, due: 1, rate: 1 };

pub fn preview_at_once() -> Line {
    line(&Call::Preview { order: AT_ONCE })
}

pub fn commit_at_once() -> Line {
    line(&Call::Commit { order: AT_ONCE, shown: 0 })
}

/// Charges on one point of line 1, one behind the other, all but the first of which start
/// behind the minute of `preview_at_once`.
pub fn behind(held: usize) -> Vec<Line> {
    let mut lines = vec![line(&Call::Open { opening: Opening::of_one(1, 100, 0) })];
    lines.extend((0..held).map(|_| order(1, 10, LOOSE)));
    filled(lines)
}

/// Each minute an order that starts at once and is gone a minute later; or the same
/// minutes without the orders.
pub fn passing(orders: bool) -> Vec<Line> {
    let mut lines = Vec::new();
    for clock in 0..PASSING {
        if orders {
            let order = Order { feeder: 1, line: 3, time: 1, due: clock + 1, rate: 1 };
            lines.push(line(&Call::Commit { order, shown: clock }));
        }
        lines.push(line(&Call::Move { target: clock + 1, places: 360 }));
    }
    lines
}

/// The minutes of the two charges that fill line 1 in `dense`.
const LONGEST: u32 = 1_440;

/// A plan whose changes all fall in minutes of their own, 2 × held − 1 steps: short
/// charges with gaps on lines 2 and 3, while line 1 is full to the end, so that an
/// order on it goes through all steps. Orders leave no such gaps; an offer does. The
/// first ticket lies last, so that every load goes in before all others.
pub fn dense(held: usize) -> (Vec<Line>, Line) {
    let mut lines = vec![line(&Call::Open { opening: Opening::of_one(1, 100, 0) })];
    let mut starts = vec![0, LONGEST];
    lines.extend([order(1, LONGEST, LOOSE), order(1, LONGEST, LOOSE)]);
    let short = held as u32 - 2;
    for place in 0..short {
        // The last one is late as ordered, so that the offer is taken.
        let due = if place + 1 == short { 10 } else { LOOSE };
        lines.push(order(2 + place % 2, 10, due));
        starts.push(1 + 16 * (short - 1 - place));
    }
    let offer = line(&Call::Offer { feeder: 1, starts });
    lines.push(offer.clone());
    (filled(lines), offer)
}

/// An order that finds line 1 of `dense` full to its end.
const BEHIND_DENSE: Order = Order { feeder: 1, line: 1, time: 1, due: LOOSE, rate: 1 };

/// Such orders, one after the other.
pub fn behind_dense(count: u32) -> Vec<Line> {
    (0..count).map(commit_behind_dense).collect()
}

/// The one behind so many others.
pub fn commit_behind_dense(others: u32) -> Line {
    line(&Call::Commit { order: BEHIND_DENSE, shown: 2 * LONGEST + others })
}

/// Such an order, previewed.
pub fn preview_behind_dense() -> Line {
    line(&Call::Preview { order: BEHIND_DENSE })
}

/// All charges on one line with one point, ordered against latest-start order, so
/// that each goes through all placed before it.
pub fn queue(held: usize) -> Vec<Line> {
    let mut lines = vec![line(&Call::Open { opening: Opening::of_one(1, 100, 0) })];
    let due = |place: usize| 8 * (held - place) as u32;
    lines.extend((0..held).map(|place| order(1, 8, due(place))));
    filled(lines)
}

#[cfg(test)]
mod tests {
    use super::*;
    use crate::protocol::read_call;
    use crate::script::{reference_answers, show};
    use std::collections::BTreeSet;

    fn last_answer(lines: &[Line]) -> String {
        show(reference_answers(lines).last().expect("an answer"))
    }

    #[test]
    fn passing_orders_start_at_once_and_nothing_else_ends() {
        let first = lasting(179);
        let answers = reference_answers(&[first.clone(), passing(true)].concat());
        for (minute, pair) in answers[first.len()..].chunks_exact(2).enumerate() {
            let ticket = 180 + minute;
            assert_eq!(show(&pair[0]), format!("ticket {ticket} start {minute}"));
            assert!(show(&pair[1]).contains(" dropped 1 "), "{}", show(&pair[1]));
        }
    }

    #[test]
    fn the_dense_plan_is_taken_and_line_1_is_full() {
        let (mut lines, offer) = dense(180);
        assert!(last_answer(&lines).starts_with("plan 0 "));
        lines.push(offer);
        assert!(last_answer(&lines).starts_with("plan 7 "));
        let (mut lines, _) = dense(150);
        lines.extend(behind_dense(2));
        assert_eq!(last_answer(&lines), "ticket 152 start 2881");
        lines.push(preview_behind_dense());
        assert_eq!(last_answer(&lines), "start 2882");
    }

    #[test]
    fn changes_of_the_dense_plan_fall_in_minutes_of_their_own() {
        let (lines, offer) = dense(180);
        let Ok(Some(Call::Offer { feeder: 1, starts })) = read_call(&offer) else {
            panic!("no offer")
        };
        let times = lines.iter().filter_map(|line| match read_call(line) {
            Ok(Some(Call::Commit { order, .. })) => Some(order.time),
            _ => None,
        });
        let changes = starts.iter().zip(times).flat_map(|(start, time)| [*start, start + time]);
        assert_eq!(changes.collect::<BTreeSet<u32>>().len(), 2 * 180 - 1);
    }

    #[test]
    fn a_queue_is_turned_around() {
        let mut lines = queue(180);
        lines.push(b"latest 1".to_vec());
        let last = last_answer(&lines);
        assert!(last.starts_with("plan 0 ") && last.ends_with(" 0 0"), "{last}");
    }
}
