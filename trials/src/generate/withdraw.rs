//! Withdrawals (N11): of charges that wait, with a start equal to the clock too, that have
//! begun, are in their tails, are gone, were withdrawn before or never ordered; out of plans
//! that lean on them; between a preview and its commit; and out of full yards, where the
//! place takes another order.

use super::author::Author;
use super::{due, full};
use crate::reference::Charge;
use crate::yard::Order;

fn ticket_of(author: &mut Author, charges: &[Charge]) -> Option<u32> {
    (!charges.is_empty()).then(|| author.random.pick(charges).ticket)
}

/// A ticket that waits, mostly; else one of any other sort.
fn some_ticket(author: &mut Author) -> u32 {
    let (waiting, begun) = (author.waiting(), author.station().begun(author.feeder));
    let next = author.station().next_ticket;
    let ticket = match author.random.below(12) {
        0..=7 => ticket_of(author, &waiting),
        8..=9 => ticket_of(author, &begun),
        10 => Some(author.random.below(u64::from(next)) as u32),
        _ => Some(author.random.pick(&[0, next - 1, next, 65_536, u32::MAX])),
    };
    ticket.unwrap_or(next)
}

pub fn withdraw(author: &mut Author) {
    let ticket = some_ticket(author);
    author.withdraw(ticket);
    // He says it twice, or looks whether it is gone.
    match author.random.below(8) {
        0 => author.withdraw(ticket),
        1 => author.enquire(ticket),
        2 => author.board(1, vec![ticket]),
        _ => (),
    }
}

fn order(author: &mut Author, longest: u64) {
    let line = author.random.between(1, 3) as u32;
    due::order(author, line, longest);
}

/// The start shown may be gone for the earlier when somebody else withdraws.
fn between_preview_and_commit(author: &mut Author, longest: u64) {
    let line = author.random.between(1, 3) as u32;
    let order = due::some(author, line, longest);
    author.preview(order);
    let shown = author.shown(order);
    withdraw(author);
    author.commit(order, shown);
    author.preview(order);
}

/// The clock comes to the start of a waiting charge, or just past it.
fn at_the_clock(author: &mut Author) {
    let waiting = author.waiting();
    if waiting.is_empty() {
        return;
    }
    let Charge { ticket, start, .. } = author.random.pick(&waiting);
    let past = author.random.pick(&[0, 0, 1]);
    author.move_to(start as u32 + past);
    author.withdraw(ticket);
}

/// The clock comes into a tail or to its end; the charge has begun, or is gone.
fn in_a_tail(author: &mut Author) {
    let charges = author.station().charges.clone();
    if charges.is_empty() {
        return;
    }
    let charge = author.random.pick(&charges);
    let minute = author.random.pick(&[charge.end(), charge.clear() - 1, charge.clear()]);
    let clock = author.clock();
    author.move_to(clock.max(minute as u32));
    author.withdraw(charge.ticket);
}

/// The last ticket is not given again.
fn last_and_again(author: &mut Author, longest: u64) {
    order(author, longest);
    let last = author.station().next_ticket - 1;
    author.withdraw(last);
    order(author, longest);
    author.enquire(last);
}

/// Everybody goes, in any turn, as far as the plan allows it.
fn all_go(author: &mut Author) {
    let mut waiting = author.waiting();
    author.random.shuffle(&mut waiting);
    for charge in waiting {
        author.withdraw(charge.ticket);
    }
}

fn replan(author: &mut Author) {
    match author.random.below(4) {
        0 => author.latest(),
        1 => author.lines(1_000),
        _ => super::plans::offer(author),
    }
}

fn one_turn(author: &mut Author, longest: u64) {
    match author.random.below(20) {
        0..=3 => (0..3).for_each(|_| order(author, longest)),
        4..=9 => withdraw(author),
        10..=12 => between_preview_and_commit(author, longest),
        13 => at_the_clock(author),
        14 => in_a_tail(author),
        15 => last_and_again(author, longest),
        16..=17 => replan(author),
        18 => {
            let minutes = author.random.between(1, longest);
            author.move_on(minutes);
        }
        _ => all_go(author),
    }
}

/// The yard of cases e and f with other times: begun charges of line 1 lean on the waiting
/// one of line 2.
fn as_in_the_cases(author: &mut Author) {
    let long = author.random.between(4, 14) as u32;
    let short = author.random.between(2, u64::from(long) - 1) as u32;
    author.open(2, 50);
    for (line, time) in [(1, long), (3, long), (2, short), (2, short), (2, short), (1, long)] {
        let due = due::due(author, time);
        author.order(line, time, due);
    }
    let minutes = author.random.below(u64::from(short) + 1);
    author.move_on(minutes);
    author.withdraw(5);
    withdraw(author);
}

/// Two charges of line 1 beside one of each other line, all of one rate, waiting or begun:
/// they lean on both others, and nobody leans on either of them.
fn leaning(author: &mut Author) {
    let rate = author.random.pick(&[1, 1, 2]);
    let limit = author.random.between(2 * u64::from(rate), 8);
    due::open_with_bound(author, limit, rate.into());
    let time = author.random.between(2, 20) as u32;
    for line in [1, 2, 3, 1] {
        author.take(Order { feeder: author.feeder, line, time, due: 2 * time, rate });
    }
    let mut tickets = [1, 2, 3, 4];
    author.random.shuffle(&mut tickets);
    if author.random.percent(30) {
        author.move_on(1);
    }
    for ticket in tickets {
        author.withdraw(ticket);
    }
}

/// 180 held, and each place that is freed takes one order and no more.
fn full_yard(author: &mut Author) {
    let limit = author.random.pick(&[1, 3, 20, 60]);
    due::open(author, limit);
    let longest = author.random.pick(&[2, 10, 60]);
    full::fill(author, longest);
    for _ in 0..author.random.between(1, 4) {
        order(author, longest);
        withdraw(author);
        order(author, longest);
        order(author, longest);
        if author.random.percent(30) {
            replan(author);
        }
        let minutes = author.random.pick(&[0, 0, 1]);
        author.move_on(minutes);
    }
    if author.random.percent(30) {
        all_go(author);
    }
}

/// Small bounds, so that lines lean on each other.
fn narrow(author: &mut Author) {
    let limit = author.random.between(2, 8);
    let bound = author.random.pick(&[1, 1, 2]);
    due::open_with_bound(author, limit, bound);
}

pub fn write(author: &mut Author) {
    match author.random.below(25) {
        0 => return full_yard(author),
        1..=4 => as_in_the_cases(author),
        5..=9 => leaning(author),
        10..=17 => narrow(author),
        _ => {
            let limit = author.random.between(1, 4);
            due::open(author, limit);
        }
    }
    let longest = author.random.pick(&[4, 10, 30]);
    for _ in 0..author.random.between(5, 20) {
        one_turn(author, longest);
        if author.random.percent(5) {
            author.ask_for_tickets();
        }
    }
}
