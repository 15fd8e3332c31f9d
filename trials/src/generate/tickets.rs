//! All tickets used up: 65,535 orders, cheap because each crowd of 180 is gone
//! after one minute. A full yard is refused 13 before the tickets are refused 14, and a
//! start that is not the earliest 16 after both. A ticket that was withdrawn is not given
//! again (N11).

use super::author::Author;
use crate::yard::Order;

const LAST_TICKET: u32 = 65_535;

/// Orders of one minute, up to so many held or until the tickets run out.
fn crowd(author: &mut Author) {
    let clock = author.clock();
    while author.held() < 180 && author.station().next_ticket <= LAST_TICKET - 180 {
        let line = author.held() as u32 % 3 + 1;
        author.order(line, 1, clock + 2);
    }
}

pub fn write(author: &mut Author) {
    author.open_with_tail(60, 100, 0);
    while author.station().next_ticket <= LAST_TICKET - 180 {
        crowd(author);
        author.move_on(1);
    }
    // The last 180 stay for a while, so that the yard is full with no ticket left.
    while author.station().next_ticket <= LAST_TICKET {
        let line = author.random.between(1, 3) as u32;
        let time = author.random.between(2, 9) as u32;
        let due = author.clock() + time;
        author.order(line, time, due);
    }
    let due = author.clock() + 5;
    author.order(1, 5, due);
    author.withdraw(LAST_TICKET);
    author.order(1, 5, due);
    author.move_on(3);
    author.order(1, 5, due + 3);
    let order = Order { feeder: author.feeder, line: 1, time: 6, due: due + 3, rate: 2 };
    author.preview(order);
    author.commit(order, u32::MAX);
    author.latest();
    author.lines(10);
    author.enquire(LAST_TICKET);
    author.enquire(LAST_TICKET + 1);
    author.move_on(40);
    author.order(1, 5, 2_000_000);
    author.enquire(LAST_TICKET);
}
