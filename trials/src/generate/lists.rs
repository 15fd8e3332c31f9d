//! Offers of as many numbers as the station has places, of more, and of as many as
//! a line holds: a list that is longer than there are waiting charges is "refused
//! 10", however long, and each of its words is still judged.

use super::author::Author;
use super::{due, full, mixed};
use crate::protocol::LONGEST_LINE;

/// Words that are no starts; with two of them the first one counts.
const FAULTS: [&[u8]; 6] = [b"x", b"", b"4294967296", b"7x", b"-1", b"99999999999999999999"];

/// Numbers until the line is just full: the last one has what room is left.
fn filled() -> Vec<u8> {
    let mut line = b"offer 1".to_vec();
    while line.len() + 2 <= LONGEST_LINE {
        line.extend_from_slice(b" 7");
    }
    line.resize(LONGEST_LINE, b'0');
    line
}

/// The held plan, made longer or shorter to so many starts.
fn of_length(author: &Author, count: usize) -> Vec<u8> {
    let waiting = author.waiting();
    let starts = waiting.iter().map(|charge| charge.start).chain(std::iter::repeat(7));
    let words = starts.take(count).map(|start| format!(" {start}"));
    let mut line = format!("offer {}", author.feeder).into_bytes();
    line.extend(words.flat_map(String::into_bytes));
    line
}

/// One or two words of the list become such as are no starts.
fn spoil(author: &mut Author, line: &[u8]) -> Vec<u8> {
    let mut words: Vec<&[u8]> = line.split(|byte| *byte == b' ').collect();
    for _ in 0..author.random.between(1, 2) {
        let last = words.len() as u64 - 1;
        let place = author.random.pick(&[1, 180, 181, last - 1]).clamp(1, last - 1) + 1;
        words[place as usize] = author.random.pick(&FAULTS);
    }
    words.join(&b' ')
}

fn offer(author: &mut Author) {
    let line = match author.random.pick(&[179, 180, 181, 182, 500, 0]) {
        0 => filled(),
        count => of_length(author, count),
    };
    let line = if author.random.percent(30) { spoil(author, &line) } else { line };
    author.line(line);
}

pub fn write(author: &mut Author) {
    let limit = author.random.pick(&[1, 3, 20, 60]);
    due::open(author, limit);
    if author.random.percent(40) {
        full::fill(author, 5);
    }
    for _ in 0..author.random.between(3, 12) {
        offer(author);
        if author.random.percent(30) {
            mixed::one_call(author, 10);
        }
    }
}

#[cfg(test)]
mod tests {
    use super::*;
    use crate::protocol::{read_call, Call};

    #[test]
    fn a_full_line_is_a_call() {
        assert_eq!(filled().len(), LONGEST_LINE);
        let Ok(Some(Call::Offer { starts, .. })) = read_call(&filled()) else { panic!("no offer") };
        assert_eq!(starts.len(), 2044);
    }
}
