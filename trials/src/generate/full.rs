//! Full yards: 180 held, and the 181st order refused 13, previewed or committed, also
//! where its due minute cannot be met or the start shown is no start; 4, 6 and 17 come
//! first. Then room again.

use super::author::Author;
use super::due;
use crate::yard::Order;

pub fn fill(author: &mut Author, longest: u64) {
    while author.held() < 180 {
        let line = author.random.between(1, 3) as u32;
        due::order(author, line, longest);
    }
}

fn one_too_many(author: &mut Author) {
    let clock = author.clock();
    author.order(1, 1, clock + 1);
    author.order(2, 1_440, 2_000_000);
    author.order(3, 5, clock + 4);
    let order = Order { feeder: author.feeder, line: 3, time: 1, due: clock + 1, rate: 1 };
    author.preview(order);
    let shown = author.random.pick(&[0, clock, u32::MAX]);
    author.commit(order, shown);
    author.order(1, 1, 2_000_001);
    author.take(Order { rate: 3, ..order });
    author.order(4, 1, clock + 1);
}

pub fn write(author: &mut Author) {
    let limit = author.random.pick(&[1, 2, 3, 10, 59, 60]);
    due::open(author, limit);
    let longest = author.random.pick(&[1, 10, 60]);
    fill(author, longest);
    one_too_many(author);
    author.latest();
    author.lines(1_000);
    super::plans::offer(author);
    let minutes = author.random.between(1, longest);
    author.move_on(minutes);
    for _ in 0..author.random.between(1, 3) {
        fill(author, longest);
        one_too_many(author);
        super::plans::offer(author);
        let minutes = author.random.between(1, 2 * longest);
        author.move_on(minutes);
        author.latest();
    }
}
