//! Boards (N10): no tickets to more than there may be, rising lists and such as stand still
//! or fall, tickets that are held, dropped, never given, 0 and the largest number, answer
//! lists of every length that matters, and other calls between them.

use super::author::Author;
use super::{due, full, mixed};
use crate::protocol::{write_call, Call, LONGEST_LINE, MOST_PLACES};

/// The most tickets that are not refused.
const MOST_ASKED: usize = 180;
/// Words that are no tickets, and no number of places either.
const FAULTS: [&[u8]; 5] = [b"x", b"", b"4294967296", b"7x", b"-1"];

/// Tickets of which some are held, some have been and some are not yet given: around the
/// held ones, and at both ends of the numbers.
fn some_tickets(author: &mut Author, count: usize) -> Vec<u32> {
    let next = u64::from(author.station().next_ticket);
    let held: Vec<u32> = author.station().charges.iter().map(|charge| charge.ticket).collect();
    let widest = 2 * next + 2 * count as u64 + 2;
    let mut tickets = Vec::new();
    for _ in 0..count {
        let ticket = match author.random.below(8) {
            0..=3 if !held.is_empty() => author.random.pick(&held),
            0..=4 => author.random.below(next + 2) as u32,
            5..=6 => author.random.below(widest) as u32,
            _ => author.random.pick(&[0, 1, next as u32, u32::MAX, u32::MAX - 1, 1 << 31]),
        };
        tickets.push(ticket);
    }
    rising(author, tickets, widest as u32)
}

/// In rising order; numbers that came twice are replaced by others, as long as it is easy.
fn rising(author: &mut Author, mut tickets: Vec<u32>, widest: u32) -> Vec<u32> {
    let count = tickets.len();
    tickets.sort_unstable();
    tickets.dedup();
    while tickets.len() < count {
        let ticket = author.random.below(widest.into()) as u32;
        if let Err(place) = tickets.binary_search(&ticket) {
            tickets.insert(place, ticket);
        }
    }
    tickets
}

/// The tickets that are held and nothing else, up to so many.
fn held_tickets(author: &Author, most: usize) -> Vec<u32> {
    author.station().charges.iter().map(|charge| charge.ticket).take(most).collect()
}

/// Two neighbours become equal, or change places.
fn spoil_order(author: &mut Author, tickets: &mut [u32]) {
    if tickets.len() < 2 {
        return;
    }
    let last = tickets.len() as u64 - 2;
    let place = author.random.below(last + 1);
    let place = author.random.pick(&[0, last, place]) as usize;
    match author.random.percent(60) {
        true => tickets[place + 1] = tickets[place],
        false => tickets.swap(place, place + 1),
    }
}

/// As many places as tickets, one fewer, more, none, and as many as are ever lent.
fn places(author: &mut Author, asked: usize) -> u32 {
    let asked = asked as u32;
    match author.random.below(12) {
        0..=4 => asked,
        5..=6 => asked.saturating_sub(1),
        7 => asked + 1,
        8 => asked + author.random.between(2, 300) as u32,
        9 => 0,
        10 => author.random.pick(&[MOST_PLACES - 1, MOST_PLACES, MOST_PLACES + 1]),
        _ => author.random.pick(&[360, 1 << 31, u32::MAX]),
    }
}

/// A board of a few tickets, mostly in order.
pub fn board(author: &mut Author) {
    let count = author.random.pick(&[0, 1, 1, 2, 3, 5, 9]);
    let tickets = match author.random.percent(30) {
        true => held_tickets(author, MOST_ASKED),
        false => some_tickets(author, count),
    };
    show(author, tickets, 10);
}

/// A board of about as many tickets as there may be.
fn wide_board(author: &mut Author) {
    let count = author.random.pick(&[178, 179, 180, 180, 181, 182, 300]);
    let tickets = some_tickets(author, count);
    show(author, tickets, 15);
}

/// With two neighbours in the wrong order at times.
fn show(author: &mut Author, mut tickets: Vec<u32>, wrong: u64) {
    if author.random.percent(wrong) {
        spoil_order(author, &mut tickets);
    }
    let places = places(author, tickets.len());
    author.board(places, tickets);
}

/// Tickets until the line is just full: the last one has what room is left.
fn filled() -> Vec<u8> {
    let mut line = b"board 4096".to_vec();
    for ticket in 1.. {
        let word = format!(" {ticket}").into_bytes();
        if line.len() + word.len() > LONGEST_LINE {
            break;
        }
        line.extend(word);
    }
    line.resize(LONGEST_LINE, b'0');
    line
}

/// A board in which one or two words are no numbers, or with none at all.
fn spoilt_line(author: &mut Author) -> Vec<u8> {
    let count = author.random.pick(&[0, 1, 3, 180, 181]);
    let tickets = some_tickets(author, count);
    let line = write_call(&Call::Board { places: count as u32, tickets }).into_bytes();
    let mut words: Vec<&[u8]> = line.split(|byte| *byte == b' ').collect();
    if author.random.percent(10) {
        return words[0].to_vec();
    }
    for _ in 0..author.random.between(1, 2) {
        let last = words.len() as u64 - 1;
        let place = author.random.pick(&[1, 2, 181, 182, last]).clamp(1, last);
        words[place as usize] = author.random.pick(&FAULTS);
    }
    words.join(&b' ')
}

fn one_board(author: &mut Author) {
    match author.random.below(20) {
        0..=11 => board(author),
        12..=16 => wide_board(author),
        17 => author.line(filled()),
        18 => {
            let line = spoilt_line(author);
            author.line(line);
        }
        // The same tickets, as a board and one by one.
        _ => {
            let tickets = some_tickets(author, 4);
            author.board(4, tickets.clone());
            tickets.into_iter().for_each(|ticket| author.enquire(ticket));
        }
    }
}

pub fn write(author: &mut Author) {
    let limit = author.random.pick(&[1, 2, 5, 60]);
    due::open(author, limit);
    let longest = author.random.pick(&[3, 10, 60]);
    // An empty yard has a board too.
    board(author);
    if author.random.percent(25) {
        full::fill(author, longest);
    }
    for _ in 0..author.random.between(4, 20) {
        one_board(author);
        if author.random.percent(60) {
            mixed::one_call(author, longest);
        }
    }
}

#[cfg(test)]
mod tests {
    use super::*;
    use crate::protocol::read_call;

    #[test]
    fn a_full_line_is_a_board() {
        assert_eq!(filled().len(), LONGEST_LINE);
        let Ok(Some(Call::Board { tickets, .. })) = read_call(&filled()) else {
            panic!("no board")
        };
        assert!(tickets.len() > 900, "{}", tickets.len());
    }
}
