//! Mixed charging times (N5): short charges with slack and long ones without it, and the
//! other way round, slack from none to far more than the table has places for, in lines
//! that begun charges and lowered caps leave full of gaps. Now one charge of a line is
//! the more urgent and now another, and the most urgent one may not fit where the next
//! start is.

use super::author::Author;
use super::due;
use crate::yard::Order;

/// Most are short or long, few are in between.
fn time(author: &mut Author, longest: u64) -> u64 {
    match author.random.below(5) {
        0..=1 => author.random.between(1, longest / 8 + 1),
        2..=3 => author.random.between(longest - longest / 4, longest),
        _ => author.random.between(1, longest),
    }
}

/// A slack of twice the line's mean time is about the last that the table covers.
fn slack(author: &mut Author, longest: u64) -> u64 {
    match author.random.below(10) {
        0..=1 => 0,
        2 => author.random.below(4),
        3..=6 => author.random.below(2 * longest + 1),
        7..=8 => author.random.below(8 * longest + 1),
        _ => author.random.below(400 * longest),
    }
}

fn order(author: &mut Author, line: u32, longest: u64) {
    let time = time(author, longest) as u32;
    let clock = author.clock();
    let due = match author.random.percent(10) {
        true => author.random.below(u64::from(clock + time)) as u32,
        false => clock + time + slack(author, longest) as u32,
    };
    let rate = due::rate(author);
    author.take(Order { feeder: author.feeder, line, time, due: due.min(2_000_000), rate });
}

/// One line gets most. Its first charge is long and in no hurry, so that a plan that
/// puts it behind the others is less late and is taken.
fn queue(author: &mut Author, longest: u64) {
    let crowded = author.random.between(1, 3) as u32;
    let far = author.clock() + 500 * longest as u32;
    author.order(crowded, longest as u32, far.min(2_000_000));
    for _ in 0..author.random.between(2, 9) {
        let other = author.random.between(1, 3) as u32;
        let line = author.random.pick(&[crowded, crowded, crowded, other]);
        order(author, line, longest);
    }
}

fn replan(author: &mut Author) {
    match author.random.below(8) {
        0 => author.latest(),
        1 => super::plans::offer(author),
        2 => {
            let allowance = author.random.pick(&[1, 2, 3]);
            author.lines(allowance);
        }
        _ => author.lines(1_000),
    }
}

pub fn write(author: &mut Author) {
    let limit = author.random.pick(&[1, 1, 2, 2, 3, 4, 6]);
    due::open(author, limit);
    let longest = author.random.pick(&[8, 20, 60, 200, 1_440]);
    for _ in 0..author.random.between(1, 4) {
        queue(author, longest);
        replan(author);
        author.ask_for_tickets();
        let minutes = author.random.pick(&[0, 1, longest / 2, longest]);
        author.move_on(minutes);
        replan(author);
    }
}
