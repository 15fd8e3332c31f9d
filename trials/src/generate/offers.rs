//! Offers of every kind against plans with room for improvement: long queues
//! with due minutes that an order by arrival meets badly.

use super::author::Author;
use super::due;

/// Orders whose due minutes get tighter, so that the queue is late at its end.
fn queue(author: &mut Author, longest: u64) {
    for _ in 0..author.random.between(2, 14) {
        let line = author.random.between(1, 3) as u32;
        due::order(author, line, longest);
    }
}

pub fn write(author: &mut Author) {
    let limit = author.random.between(1, 4);
    due::open(author, limit);
    let longest = author.random.pick(&[3, 10, 30]);
    for _ in 0..author.random.between(1, 4) {
        queue(author, longest);
        for _ in 0..author.random.between(2, 10) {
            super::plans::offer(author);
        }
        if author.random.percent(40) {
            let minutes = author.random.below(longest + 1);
            author.move_on(minutes);
            super::plans::offer(author);
        }
    }
}
