//! Two rates (N4): orders of both on full and unbalanced lines with small bounds, and
//! rates that there are not. "Refused: 17, after 5, rate not 1 or 2; 18, after 17, rate
//! above N or above D."

use super::author::Author;
use super::due;
use crate::yard::Order;

/// An order of either rate; where the bound is 1 the higher one is refused.
fn mixed(author: &mut Author, line: u32, longest: u64) {
    let rate = author.random.pick(&[1, 2]);
    let order = Order { rate, ..due::some(author, line, longest) };
    if author.random.percent(20) {
        author.preview(order);
    }
    author.take(order);
}

/// A rate that is refused, or not, with other arguments that are refused before it (4
/// and 5) or after it (6, 16).
fn at_the_edges(author: &mut Author, longest: u64) {
    let line = author.random.between(1, 3) as u32;
    let mut order = due::some(author, line, longest);
    order.rate = author.random.pick(&[0, 1, 2, 3, 4, 60, 61, 1 << 31, u32::MAX - 1, u32::MAX]);
    match author.random.below(8) {
        0 => order.line = author.random.pick(&[0, 4]),
        1 => order.time = author.random.pick(&[0, 1_441]),
        2..=3 => order.due = author.random.pick(&[2_000_001, u32::MAX]),
        _ => (),
    }
    author.preview(order);
    let shown = author.shown(order);
    let shown = author.random.pick(&[shown, shown, shown.wrapping_add(1)]);
    author.commit(order, shown);
}

fn replan(author: &mut Author) {
    match author.random.below(4) {
        0 => author.latest(),
        1 => {
            let allowance = author.random.pick(&[1, 2, 3, 1_000]);
            author.lines(allowance);
        }
        _ => super::plans::offer(author),
    }
}

/// So many of rate 2 that a count of all of them does not fit in a byte, and an offer
/// that starts them in one minute.
fn all_in_one_minute(author: &mut Author) {
    author.open(60, 100);
    let line = author.random.between(1, 3) as u32;
    for _ in 0..author.random.pick(&[127, 128, 129, 150, 180]) {
        author.take(Order { feeder: author.feeder, line, time: 1, due: 1, rate: 2 });
    }
    let waiting = author.waiting().len();
    author.offer(vec![0; waiting]);
    author.lines(1_000);
    author.latest();
}

pub fn write(author: &mut Author) {
    if author.random.percent(4) {
        return all_in_one_minute(author);
    }
    let bound = author.random.pick(&[1, 2, 2, 2, 3, 3]);
    let limit = author.random.between(bound, 7);
    due::open_with_bound(author, limit, bound);
    let longest = author.random.pick(&[4, 10, 20]);
    // One line gets most, so that limit, balance and caps all come to bear.
    let crowded = author.random.between(1, 3) as u32;
    for _ in 0..author.random.between(2, 8) {
        for _ in 0..author.random.between(1, 7) {
            let other = author.random.between(1, 3) as u32;
            let line = author.random.pick(&[crowded, crowded, other]);
            mixed(author, line, longest);
        }
        if author.random.percent(30) {
            at_the_edges(author, longest);
        }
        replan(author);
        let minutes = author.random.pick(&[0, 1, 3, longest]);
        author.move_on(minutes);
        replan(author);
    }
}
