//! "Allowance spent" with the largest allowance: a yard of 60, 2 with 180 waiting
//! charges that needs more than 1,000 rounds. Of 600 seeds 26 give such a yard; this is
//! the first of them.

use super::author::Author;
use crate::random::Random;

const SEED: u64 = 11;

pub fn write(author: &mut Author) {
    author.open_with_tail(60, 2, 0);
    let mut times = Random::new(SEED);
    for place in 0..180 {
        let time = times.between(1, 200) as u32;
        author.order(place % 3 + 1, time, time);
    }
    author.lines(1_000);
    let allowance = author.random.between(1, 999) as u32;
    author.lines(allowance);
    let minutes = author.random.between(1, 200);
    author.move_on(minutes);
    author.lines(1_000);
}
