//! Previews and commits in any mixture (N2): the start shown is committed at once, after
//! a move, after another commit or after a taken plan, or never; and starts that nobody
//! was shown.

use super::author::Author;
use super::due;
use crate::yard::Order;

fn order(author: &mut Author, longest: u64) -> Order {
    let line = author.random.between(1, 3) as u32;
    due::some(author, line, longest)
}

/// Shows the start of an order, which is what its driver will commit to.
fn shown(author: &mut Author, order: Order) -> u32 {
    author.preview(order);
    author.shown(order)
}

/// Something between the preview and the commit, which may give the order another
/// earliest start.
fn meanwhile(author: &mut Author, order: Order, longest: u64) {
    match author.random.below(6) {
        0 => {
            let minutes = author.random.between(1, longest);
            author.move_on(minutes);
        }
        // The same minutes, taken by somebody else.
        1 => author.take(order),
        2 => due::order(author, order.line, longest),
        3 => author.latest(),
        4 => author.lines(1_000),
        _ => super::plans::offer(author),
    }
}

/// A start that is not the earliest, though it may be sound.
fn another(author: &mut Author, earliest: u32) -> u32 {
    let late = author.station().charges.iter().map(|charge| charge.end()).max().unwrap_or(0);
    match author.random.below(8) {
        0..=1 => earliest.wrapping_add(1),
        2 => earliest.wrapping_sub(1),
        3 => 0,
        4 => author.clock(),
        5 => author.clock().wrapping_sub(1),
        6 => late as u32,
        _ => author.random.pick(&[u32::MAX, u32::MAX - 1, 1 << 31, earliest | 1 << 31]),
    }
}

pub fn one_driver(author: &mut Author, longest: u64) {
    let order = order(author, longest);
    match author.random.below(10) {
        0..=2 => {
            let start = shown(author, order);
            author.commit(order, start);
        }
        3..=6 => {
            let start = shown(author, order);
            meanwhile(author, order, longest);
            author.commit(order, start);
        }
        7 => author.preview(order),
        8 => author.take(order),
        _ => {
            let earliest = author.shown(order);
            let start = another(author, earliest);
            author.commit(order, start);
        }
    }
}

pub fn write(author: &mut Author) {
    let limit = author.random.between(1, 4);
    due::open(author, limit);
    let longest = author.random.pick(&[3, 10, 30]);
    for _ in 0..author.random.between(4, 25) {
        one_driver(author, longest);
        if author.random.percent(15) {
            let minutes = author.random.below(longest + 1);
            author.move_on(minutes);
        }
    }
}
