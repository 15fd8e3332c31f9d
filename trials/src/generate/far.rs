//! Far moves: clocks near 1,000,000, queues that reach far past it, and due
//! minutes up to 2,000,000.

use super::author::Author;
use super::due;
use crate::yard::Order;

fn queue(author: &mut Author, count: u64) {
    let one_line = author.random.percent(50);
    for _ in 0..count {
        let line = if one_line { 2 } else { author.random.between(1, 3) as u32 };
        let time = author.random.pick(&[1, 700, 1_439, 1_440]);
        let tight = author.random.percent(50);
        let due = if tight { author.clock() + time } else { 2_000_000 };
        let rate = due::rate(author);
        author.take(Order { feeder: author.feeder, line, time, due, rate });
    }
}

pub fn write(author: &mut Author) {
    let limit = author.random.pick(&[1, 1, 2, 60]);
    due::open(author, limit);
    for _ in 0..author.random.between(1, 3) {
        let count = author.random.pick(&[2, 5, 20, 60]);
        queue(author, count);
        super::plans::offer(author);
        author.latest();
        let clock = author.clock();
        let target = author.random.pick(&[clock + 1, 500_000, 999_990, 999_999, 1_000_000]);
        author.move_to(target.max(clock));
        author.lines(5);
    }
    author.move_to(1_000_000);
    author.move_to(1_000_001);
    queue(author, 5);
    author.latest();
    author.move_to(1_000_000);
    author.move_to(999_999);
}
