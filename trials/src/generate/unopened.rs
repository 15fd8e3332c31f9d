//! "Before the first `open` the station is that of 1, 100": orders, moves and
//! replans with no opening at all.

use super::author::Author;
use super::{due, mixed};

pub fn write(author: &mut Author) {
    let longest = author.random.pick(&[2, 5, 12]);
    // Two on a line show the limit, and one beside a line's two the bound.
    for line in [1, 1, 2, 1] {
        due::order(author, line, longest);
    }
    for _ in 0..author.random.between(5, 30) {
        mixed::one_call(author, longest);
    }
}
