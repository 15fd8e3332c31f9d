//! Every pair of N and c around their ranges, opened once (N3): "D becomes c × N / 100
//! rounded to the nearest whole number, an exact half to the even one"; with an r of 0 to
//! 5 mostly, and at times with one above, which is refused after all else (N7). Some of
//! the stations get orders on one line until the bound makes one wait.

use super::author::Author;

pub fn write(author: &mut Author) {
    for limit in 0..=61 {
        for percent in 0..=101 {
            let most = author.random.pick(&[5, 5, 5, 6, 7]);
            let tail = author.random.between(0, most) as u32;
            author.open_with_tail(limit, percent, tail);
            if author.random.percent(3) {
                fill_a_minute(author);
            }
        }
    }
}

/// Beside empty lines the bound lets so many start at once, and no more.
fn fill_a_minute(author: &mut Author) {
    let line = author.random.between(1, 3) as u32;
    for _ in 0..=author.own().bound {
        author.order(line, 1, 1);
    }
}
