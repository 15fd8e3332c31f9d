//! Searches of orders (N6) over plans with many steps and gaps: offers move starts apart, so
//! that room is found at once, between two charges, behind many steps or only behind all
//! of them, by short and long charges on all lines.

use super::author::Author;
use super::due;
use crate::yard::Order;

/// Orders that may wait for ever, and one that came too late for its due minute.
fn queue(author: &mut Author, longest: u64) {
    for _ in 0..author.random.between(2, 12) {
        let line = author.random.between(1, 3) as u32;
        let order = Order { due: 2_000_000, ..due::some(author, line, longest) };
        author.take(order);
    }
    let line = author.random.between(1, 3) as u32;
    let late = author.clock();
    author.order(line, 1, late);
}

/// Times around the lengths of the gaps, up to the longest there is.
fn wanted(author: &mut Author, longest: u64) -> Order {
    let line = author.random.between(1, 3) as u32;
    let time = match author.random.below(6) {
        0..=1 => author.random.between(1, 3),
        2..=3 => author.random.between(1, longest),
        4 => author.random.between(longest, 4 * longest),
        _ => 1_440,
    };
    let time = time.min(1_440) as u32;
    Order {
        feeder: author.feeder,
        line,
        time,
        due: due::due(author, time),
        rate: due::rate(author),
    }
}

pub fn write(author: &mut Author) {
    let limit = author.random.between(1, 4);
    due::open(author, limit);
    let longest = author.random.pick(&[4, 10, 40, 300]);
    for _ in 0..author.random.between(1, 4) {
        queue(author, longest);
        super::plans::offer_spread(author);
        for _ in 0..author.random.between(2, 8) {
            let order = wanted(author, longest);
            author.preview(order);
        }
        let order = wanted(author, longest);
        author.take(order);
        let minutes = author.random.pick(&[0, 1, longest / 2, 3 * longest]);
        author.move_on(minutes);
        let order = wanted(author, longest);
        author.preview(order);
    }
}
