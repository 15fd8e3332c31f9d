//! Drivers in a hurry (N1): due minutes that cannot be met, beside others. Latest
//! starts lie below zero, at zero and above, and some are equal, so that both
//! replans have to place them in the order of the integers, then by ticket.

use super::author::Author;
use super::due;
use crate::yard::Order;

/// A due minute at an edge of what can be met, or of what is taken.
pub fn due(author: &mut Author, time: u32) -> u32 {
    let clock = author.clock();
    let met = clock + time;
    match author.random.below(10) {
        0..=1 => 0,
        2..=3 => author.random.below(u64::from(clock) + 1) as u32,
        4 => clock.saturating_sub(1),
        5..=6 => met - 1,
        7 => met,
        8 => author.random.pick(&[1_999_999, 2_000_000]),
        _ => author.random.pick(&[2_000_000, 2_000_001]),
    }
}

/// An order whose latest start is one of a few, wherever the clock is.
fn of_few_latest_starts(author: &mut Author, line: u32, longest: u64) {
    let time = author.random.between(1, longest) as u32;
    let latest_start = author.random.pick(&[-10, -3, -3, -1, 0, 1, 4]);
    let due = time.saturating_add_signed(latest_start);
    let rate = due::rate(author);
    author.take(Order { feeder: author.feeder, line, time, due, rate });
}

/// One line gets most, so that the turn of its charges decides who is late.
fn queue(author: &mut Author, longest: u64) {
    let crowded = author.random.between(1, 3) as u32;
    for _ in 0..author.random.between(2, 9) {
        let other = author.random.between(1, 3) as u32;
        let line = author.random.pick(&[crowded, crowded, crowded, other]);
        match author.random.below(4) {
            0 => due::order(author, line, longest),
            1 => {
                let time = author.random.between(1, longest) as u32;
                let due = due(author, time);
                author.order(line, time, due);
            }
            _ => of_few_latest_starts(author, line, longest),
        }
    }
}

fn replan(author: &mut Author) {
    match author.random.below(5) {
        0..=1 => author.latest(),
        2..=3 => author.lines(1_000),
        _ => super::plans::offer(author),
    }
}

pub fn write(author: &mut Author) {
    let limit = author.random.between(1, 3);
    due::open(author, limit);
    let longest = author.random.pick(&[4, 12, 20]);
    // At clock 0 too, where nothing has gone before a due minute of 0.
    for _ in 0..author.random.between(1, 4) {
        queue(author, longest);
        replan(author);
        replan(author);
        let minutes = author.random.pick(&[0, 1, longest, 300]);
        author.move_on(minutes);
    }
}
