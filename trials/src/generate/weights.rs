//! The weights themselves (N5): places of the table that are hit exactly, at its end too,
//! weights over p that are equal or nearly so, charges that are all equal, and one-line
//! yards of 180.

use super::author::Author;
use super::due;
use crate::yard::Order;

/// The places that are hit: the first ones, some between, the last ones, and such as
/// there are not.
const PLACES: [u64; 16] = [0, 0, 1, 2, 5, 40, 99, 100, 101, 200, 509, 510, 511, 512, 513, 4_000];

/// A charge of a line that stays in the order of arrival: its time, and its slack from
/// the clock on.
type Wanted = (u64, u64);

/// So many times that P is 256 × n × each, and k is a slack divided by `each`.
fn times(author: &mut Author, number: u64, each: u64) -> Vec<u64> {
    let mut left = 256 * number * each;
    let mut times = Vec::new();
    for after in (0..number).rev() {
        let least = left.saturating_sub(1_440 * after).max(1);
        let most = (left - after).min(1_440);
        let time = author.random.between(least, most);
        times.push(time);
        left -= time;
    }
    author.random.shuffle(&mut times);
    times
}

/// Every charge hits a place of the table exactly at the clock.
fn at_places(author: &mut Author) -> Vec<Wanted> {
    let (number, each) = (author.random.between(2, 5), author.random.between(1, 4));
    let some = author.random.pick(&[0, 1, 98, 99, 100, 508, 510, 511]);
    let times = times(author, number, each);
    let slack = |time: u64| {
        let near = some + author.random.below(3);
        let place = author.random.pick(&PLACES);
        let place = if author.random.percent(70) { near } else { place };
        (time, each * place + author.random.below(each))
    };
    times.into_iter().map(slack).collect()
}

/// Two charges of which the one with more slack has a weight over p that is larger by
/// less than one, or just as large, or smaller by as little; and a third that fills up P.
fn nearly_equal(author: &mut Author) -> Vec<Wanted> {
    let long = author.random.between(1_200, 1_440);
    let (place, further) = (author.random.between(420, 508), author.random.between(1, 3));
    let mut short = long as f64;
    for _ in 0..further {
        short *= 63.0 / 64.0;
    }
    let shorter = short.floor() as u64 + author.random.pick(&[0, 0, 1]);
    // n is 3 and P 256 × 3 × 4, so that k is a quarter of the slack.
    let rest = (3_072 - long - shorter).min(1_440);
    let last = author.random.pick(&[4 * place, 4 * 511, 9_000]);
    vec![(rest, last), (long, 4 * place), (shorter, 4 * (place + further))]
}

/// Weights over p that are equal: E(k) is exact up to k = 5.
fn equal(author: &mut Author) -> Vec<Wanted> {
    let part = author.random.between(1, 22);
    let further = author.random.between(1, 4);
    let fill = 512 - (127 * part) % 512;
    vec![(64 * part, further - 1), (63 * part, further), (fill, 0), (fill, 5)]
}

/// A queue on one point, in any order; the one with the most slack comes first, so that a
/// plan that puts it last is less late.
fn queue(author: &mut Author, mut wanted: Vec<Wanted>) {
    author.open(1, 100);
    let minutes = author.random.below(3);
    author.move_on(minutes);
    author.random.shuffle(&mut wanted);
    if author.random.percent(60) {
        wanted.sort_by_key(|(_, slack)| std::cmp::Reverse(*slack));
    }
    let line = author.random.between(1, 3) as u32;
    for (time, slack) in wanted {
        let due = author.clock() + (time + slack) as u32;
        author.order(line, time as u32, due);
    }
    author.lines(1_000);
}

/// Few different charges or one only, so that d − p and the ticket decide.
fn alike(author: &mut Author) {
    let limit = author.random.pick(&[1, 2, 3, 20]);
    due::open(author, limit);
    let time = author.random.pick(&[1, 5, 30, 60]);
    let dues = author.random.pick(&[1, 1, 2, 3]);
    let count = author.random.pick(&[3, 8, 20, 180]);
    let line = author.random.between(1, 3) as u32;
    let spread = author.random.percent(20);
    for _ in 0..count {
        let line = if spread { author.random.between(1, 3) as u32 } else { line };
        let rate = due::rate(author);
        let due = author.clock() + (time * author.random.between(1, dues)) as u32;
        author.take(Order { feeder: author.feeder, line, time: time as u32, due, rate });
    }
    author.lines(1_000);
    author.move_on(time / 2);
    author.lines(1_000);
}

/// 180 of one line, of all times.
fn one_line(author: &mut Author) {
    let limit = author.random.pick(&[1, 2, 20, 60]);
    due::open(author, limit);
    let longest = author.random.pick(&[10, 60, 200]);
    let line = author.random.between(1, 3) as u32;
    while author.held() < 180 {
        due::order(author, line, longest);
    }
    author.lines(1_000);
    author.move_on(longest);
    author.lines(1_000);
}

pub fn write(author: &mut Author) {
    match author.random.below(20) {
        0..=7 => {
            let wanted = at_places(author);
            queue(author, wanted);
        }
        8..=12 => {
            let wanted = nearly_equal(author);
            queue(author, wanted);
        }
        13..=14 => {
            let wanted = equal(author);
            queue(author, wanted);
        }
        15..=18 => alike(author),
        _ => one_line(author),
    }
}
