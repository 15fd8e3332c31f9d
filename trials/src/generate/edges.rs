//! Tiny yards, every argument at and just outside its range and near 2^32.
//! Several arguments are bad at the same time, because "where several apply, its stated
//! place goes before its number".

use super::author::Author;
use super::due;
use crate::protocol::Call;
use crate::yard::Order;

const NEAR_WORD: [u32; 4] = [u32::MAX, u32::MAX - 1, 1 << 31, (1 << 31) - 1];

/// A value of the range mostly, else one from its edges, else a huge one.
fn argument(author: &mut Author, usual: u32, edges: &[u32]) -> u32 {
    match author.random.below(20) {
        0..=11 => usual,
        12..=18 => author.random.pick(edges),
        _ => author.random.pick(&NEAR_WORD),
    }
}

fn opening(author: &mut Author) {
    let usual = author.random.between(1, 5) as u32;
    let limit = argument(author, usual, &[0, 1, 2, 59, 60, 61]);
    let least = due::least_percent(u64::from(limit.clamp(1, 60))) as u32;
    let usual = author.random.between(u64::from(least), 100) as u32;
    let percent = argument(author, usual, &[0, 1, least - 1, least, 99, 100, 101]);
    let usual = author.random.below(6) as u32;
    let tail = argument(author, usual, &[0, 1, 4, 5, 6, 7]);
    author.open_with_tail(limit, percent, tail);
}

fn order(author: &mut Author) {
    let line = author.random.between(1, 3) as u32;
    let line = argument(author, line, &[0, 1, 3, 4]);
    let usual = author.random.between(1, 9) as u32;
    let time = argument(author, usual, &[0, 1, 2, 1_439, 1_440, 1_441]);
    let first = author.clock().wrapping_add(time);
    let usual = first.saturating_add(author.random.below(20) as u32);
    let edges = [
        0,
        author.clock().saturating_sub(1),
        first.saturating_sub(1),
        first,
        first.saturating_add(1),
        1_999_999,
        2_000_000,
        2_000_001,
    ];
    let due = argument(author, usual, &edges);
    let usual = author.random.pick(&[1, 1, 2]);
    let rate = argument(author, usual, &[0, 1, 2, 3]);
    let order = Order { feeder: author.feeder, line, time, due, rate };
    if author.random.percent(25) {
        author.preview(order);
    }
    let earliest = author.shown(order);
    let edges = [0, earliest.wrapping_sub(1), earliest, earliest.wrapping_add(1)];
    let shown = argument(author, earliest, &edges);
    author.commit(order, shown);
}

fn clock_move(author: &mut Author) {
    let clock = author.clock();
    let usual = clock + author.random.below(8) as u32;
    let edges = [clock.saturating_sub(1), clock, clock + 1, 0, 1_000_001];
    let target = argument(author, usual, &edges);
    // Rarely to the very end, because hardly anything can follow.
    let target =
        if author.random.percent(3) { author.random.pick(&[999_999, 1_000_000]) } else { target };
    let places = argument(author, 360, &[0, 1, 359, 360, 361, 4_095, 4_096, 4_097]);
    author.call(Call::Move { target, places });
}

fn one_call(author: &mut Author) {
    match author.random.below(13) {
        0..=5 => order(author),
        6..=7 => clock_move(author),
        8 => {
            let allowance = argument(author, 1_000, &[0, 1, 2, 999, 1_000, 1_001]);
            author.lines(allowance);
        }
        9 => author.latest(),
        10 => super::plans::offer(author),
        _ => {
            let next = author.station().next_ticket;
            let ticket = argument(author, 1, &[0, next - 1, next, 65_535, 65_536]);
            match author.random.percent(50) {
                true => author.enquire(ticket),
                false => author.withdraw(ticket),
            }
        }
    }
}

pub fn write(author: &mut Author) {
    for _ in 0..author.random.between(1, 3) {
        opening(author);
        for _ in 0..author.random.between(2, 25) {
            one_call(author);
        }
    }
}
