//! Contactors that open late (N7): every r, back-to-back charges on full lines, moves that
//! end inside tails and at their edges, full yards whose places are held by tails, and
//! openings that are refused for r or for something before it.

use super::author::Author;
use super::due;
use super::full;

/// An opening whose N, c and r may each be out of range; beside the refusal stands a
/// station without tails, which the next orders show.
fn opening_at_the_edges(author: &mut Author) {
    let limit = author.random.pick(&[0, 1, 2, 5, 60, 61]);
    let percent = author.random.pick(&[0, 1, 10, 50, 100, 101]);
    let tail = author.random.pick(&[0, 1, 3, 5, 6, 7, 1 << 31, u32::MAX]);
    author.open_with_tail(limit, percent, tail);
    for _ in 0..author.random.between(0, 3) {
        due::order(author, 1, 4);
    }
}

fn open(author: &mut Author, limit: u64) {
    let tail = author.random.between(0, 5) as u32;
    let bound = author.random.between(1, limit);
    let percent = (100 * bound + limit / 2) / limit;
    author.open_with_tail(limit as u32, percent as u32, tail);
}

/// A minute at which a charge's charging ends, its tail goes on, or it is gone, or the one
/// before or after that; not below the clock.
fn near_a_tail(author: &mut Author) -> u32 {
    let charges = author.station().charges.clone();
    if charges.is_empty() {
        return author.clock() + 1;
    }
    let charge = author.random.pick(&charges);
    let edge = author.random.pick(&[charge.start, charge.end(), charge.end(), charge.clear()]);
    let minute = match author.random.below(4) {
        0 => edge.saturating_sub(1),
        1 => edge + 1,
        2 => charge.end() + author.random.below(charge.tail + 1),
        _ => edge,
    };
    (minute as u32).max(author.clock())
}

fn replan(author: &mut Author) {
    match author.random.below(4) {
        0 => author.latest(),
        1 => {
            let allowance = author.random.pick(&[1, 2, 3, 100]);
            author.lines(allowance);
        }
        _ => super::plans::offer(author),
    }
}

/// Everybody starts at once and is gone, but for the tail, a minute later.
fn full_of_tails(author: &mut Author) {
    let tail = author.random.between(1, 5) as u32;
    author.open_with_tail(60, 100, tail);
    for place in 0..180 {
        author.order(place % 3 + 1, 1, 1);
    }
    for _ in 0..=tail {
        author.move_on(1);
        author.order(1, 1, 1);
        let ticket = author.random.between(1, 181) as u32;
        author.enquire(ticket);
        replan(author);
    }
    full::fill(author, 2);
    author.move_on(2);
    author.order(2, 1, 1);
}

pub fn write(author: &mut Author) {
    match author.random.below(20) {
        0 => return full_of_tails(author),
        1..=4 => opening_at_the_edges(author),
        _ => {
            let limit = author.random.between(1, 5);
            open(author, limit);
        }
    }
    let longest = author.random.pick(&[1, 3, 6, 12]);
    let crowded = author.random.between(1, 3) as u32;
    for _ in 0..author.random.between(2, 7) {
        for _ in 0..author.random.between(1, 6) {
            let other = author.random.between(1, 3) as u32;
            let line = author.random.pick(&[crowded, crowded, other]);
            due::order(author, line, longest);
        }
        replan(author);
        let target = near_a_tail(author);
        author.move_to(target);
        author.ask_for_tickets();
        replan(author);
    }
}
