//! Orders as the kinds share them.

use super::author::Author;
use crate::yard::Order;

/// A due minute that is not refused: tight, loose or in between, and at times one
/// that cannot be met.
pub fn due(author: &mut Author, time: u32) -> u32 {
    let met = author.clock() + time;
    let slack = match author.random.below(9) {
        0..=1 => 0,
        2..=3 => author.random.below(5),
        4..=5 => author.random.below(40),
        6..=7 => author.random.below(400),
        _ => return author.random.below(u64::from(met)) as u32,
    };
    (met + slack as u32).min(2_000_000)
}

/// An order that is refused, if at all, for what the station holds.
pub fn some(author: &mut Author, line: u32, longest: u64) -> Order {
    let time = author.random.between(1, longest) as u32;
    Order { feeder: author.feeder, line, time, due: due(author, time), rate: rate(author) }
}

/// A rate that the station takes: mostly 1, and 2 at times where limit and bound allow.
pub fn rate(author: &mut Author) -> u32 {
    let two = author.random.percent(30)
        && author.own().bound.min(author.own().limit).min(author.station().site_limit) >= 2;
    if two {
        2
    } else {
        1
    }
}

/// Such an order, previewed at times and committed.
pub fn order(author: &mut Author, line: u32, longest: u64) {
    let order = some(author, line, longest);
    if author.random.percent(20) {
        author.preview(order);
    }
    author.take(order);
}

/// The smallest percentage that gives this limit a bound of at least 1: more than half
/// a point.
pub fn least_percent(limit: u64) -> u64 {
    50 / limit + 1
}

/// An opening with this limit and a bound of at least 1.
pub fn open(author: &mut Author, limit: u64) {
    let least = least_percent(limit);
    let percent = match author.random.below(4) {
        0 => least,
        1 => author.random.between(least, (4 * least).min(100)),
        2 => halfway(author, limit).unwrap_or(least),
        _ => author.random.between(least, 100),
    };
    author.open(limit as u32, percent as u32);
}

/// An opening with this limit and this bound, which is not above it.
pub fn open_with_bound(author: &mut Author, limit: u64, bound: u64) {
    author.open(limit as u32, ((100 * bound + limit / 2) / limit) as u32);
}

/// A percentage with which c × N / 100 lies just between two whole numbers.
fn halfway(author: &mut Author, limit: u64) -> Option<u64> {
    let halves: Vec<u64> =
        (least_percent(limit)..=100).filter(|percent| percent * limit % 100 == 50).collect();
    (!halves.is_empty()).then(|| author.random.pick(&halves))
}
