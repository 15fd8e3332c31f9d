//! Small yards and calls of all sorts in any turn.

use super::author::Author;
use super::due;

pub fn one_call(author: &mut Author, longest: u64) {
    match author.random.below(100) {
        0..=39 => {
            let line = author.random.between(1, 3) as u32;
            due::order(author, line, longest);
        }
        40..=58 => {
            let minutes = author.random.below(longest + 1);
            author.move_on(minutes);
        }
        59..=66 => author.latest(),
        67..=74 => {
            let allowance = author.random.pick(&[1, 2, 3, 5, 10, 1_000]);
            author.lines(allowance);
        }
        75..=86 => super::plans::offer(author),
        87..=89 => super::boards::board(author),
        90..=93 => super::withdraw::withdraw(author),
        _ => {
            let next = u64::from(author.station().next_ticket);
            let ticket = author.random.below(next + 1) as u32;
            author.enquire(ticket);
        }
    }
}

pub fn write(author: &mut Author) {
    let limit = author.random.between(1, 6);
    due::open(author, limit);
    let longest = author.random.pick(&[2, 5, 12, 40, 200]);
    for _ in 0..author.random.between(5, 60) {
        one_call(author, longest);
        if author.random.percent(2) {
            author.ask_for_tickets();
        }
    }
}
