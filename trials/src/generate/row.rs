//! "One clock and one ticket row serve the site" (N14): all 65,535 tickets used up by several
//! feeders together, so that each of them is refused 14, and the full one 13 before it.

use super::author::Author;
use crate::yard::{Opening, Order, Settings};

const LAST_TICKET: u32 = 65_535;

/// Orders of one minute on all feeders, in turn.
fn crowd(author: &mut Author, count: u32) {
    for place in 0..180 * count {
        author.feeder = place % count + 1;
        let line = place / count % 3 + 1;
        author.order(line, 1, 2);
    }
}

pub fn write(author: &mut Author) {
    let count = author.random.between(2, 4) as u32;
    let feeders = vec![Settings { limit: 60, percent: 100, tail: 0 }; count as usize];
    author.open_site(Opening { count, site_limit: 720, feeders });
    while author.station().next_ticket + 180 * count <= LAST_TICKET + 1 - 180 {
        crowd(author, count);
        author.move_on(1);
    }
    // Some hundreds are left: the first feeder is filled, and the last one takes the rest.
    author.feeder = 1;
    while author.held() < 180 {
        let line = author.random.between(1, 3) as u32;
        author.order(line, 3, 9);
    }
    author.feeder = count;
    while author.station().next_ticket <= LAST_TICKET {
        let line = author.random.between(1, 3) as u32;
        author.order(line, 1, 2);
        if author.held() == 180 {
            author.move_on(1);
        }
    }
    for feeder in 0..=count + 1 {
        let order = Order { feeder, line: 1, time: 1, due: 2, rate: 1 };
        author.preview(order);
        author.take(order);
    }
    author.withdraw(LAST_TICKET);
    author.take(Order { feeder: count, line: 1, time: 1, due: 2, rate: 1 });
    author.move_on(40);
    author.order(1, 5, 9);
}
