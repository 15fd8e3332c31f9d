//! Sites of several feeders (N14): one to four of them, under site limits that bind, just so or
//! not at all, with tails of their own; feeders that take each other's room, replans of one
//! beside a full other, charges with room under the site limit in their first minutes alone,
//! lists of 360 places for each, numbers of feeders that there are not, and openings at, inside
//! and outside every range.

use super::author::{Author, PLACES};
use super::{boards, commits, due, full, mixed, plans, withdraw};
use crate::protocol::Call;
use crate::yard::{Opening, Order, Settings};

const NEAR_WORD: [u32; 2] = [u32::MAX, 1 << 31];

/// Settings of a feeder that opens, with a limit of up to so much.
fn settings(author: &mut Author, most: u64) -> Settings {
    let limit = author.random.between(1, most);
    let bound = author.random.between(1, limit);
    let bound = author.random.pick(&[1, bound]);
    let percent = (100 * bound + limit / 2) / limit;
    let late = author.random.percent(60);
    let tail = if late { author.random.between(1, 5) } else { 0 };
    Settings { limit: limit as u32, percent: percent as u32, tail: tail as u32 }
}

/// A site that opens. Its limit lets one point draw, or as much as one feeder, or a bit more or
/// less than all of them together, or whatever they can.
fn site(author: &mut Author, most: u64) -> Opening {
    let count = author.random.pick(&[1, 2, 2, 2, 3, 3, 4]);
    let feeders: Vec<Settings> = (0..count).map(|_| settings(author, most)).collect();
    let sum: u32 = feeders.iter().map(|feeder| feeder.limit).sum();
    let largest = feeders.iter().map(|feeder| feeder.limit).max().unwrap_or(1);
    let limits = [1, 2, 3, largest, largest, sum, sum, sum + 1, 2 * sum, 3 * sum - 1, 3 * sum, 720];
    let site_limit = author.random.pick(&limits).min(720);
    Opening { count, site_limit, feeders }
}

fn count(author: &Author) -> u32 {
    author.station().feeders.len() as u32
}

/// One of the feeders is chosen for what comes next.
fn choose(author: &mut Author) {
    author.feeder = author.random.between(1, count(author).into()) as u32;
}

fn orders(author: &mut Author, number: u64, longest: u64) {
    for _ in 0..number {
        choose(author);
        let line = author.random.between(1, 3) as u32;
        due::order(author, line, longest);
    }
}

fn replan(author: &mut Author) {
    match author.random.below(5) {
        0 => author.latest(),
        1 => author.lines(1_000),
        2 => {
            let allowance = author.random.pick(&[1, 2, 3]);
            author.lines(allowance);
        }
        _ => plans::offer(author),
    }
}

/// Settings of which one or the other is out of its range.
fn spoil(author: &mut Author, feeder: &mut Settings) {
    match author.random.below(4) {
        0 => feeder.limit = author.random.pick(&[0, 1, 60, 61, u32::MAX]),
        1 => feeder.percent = author.random.pick(&[0, 1, 100, 101, u32::MAX]),
        2 => feeder.tail = author.random.pick(&[0, 5, 6, 7, u32::MAX]),
        _ => (feeder.limit, feeder.percent) = author.random.pick(&[(1, 50), (50, 1), (5, 10)]),
    }
}

/// Feeders fewer than the count, which are no feeders, or more, which are not read however they
/// are; at times as many as there are.
fn other_number_of_feeders(author: &mut Author, opening: &mut Opening) {
    let given = author.random.between(1, 4) as usize;
    opening.feeders.truncate(given);
    while opening.feeders.len() < given {
        let mut further = settings(author, 60);
        if author.random.percent(70) {
            spoil(author, &mut further);
        }
        opening.feeders.push(further);
    }
}

/// An opening with one or two of its numbers at an edge of its range or outside, where several
/// refusals may apply.
fn opening_at_the_edges(author: &mut Author) {
    let mut opening = site(author, 6);
    for _ in 0..author.random.pick(&[0, 1, 1, 1, 2, 3]) {
        match author.random.below(8) {
            0 => opening.count = author.random.pick(&[0, 1, 2, 3, 4, 5, 6]),
            1 => opening.count = author.random.pick(&NEAR_WORD),
            2 => opening.site_limit = author.random.pick(&[0, 1, 2, 719, 720, 721]),
            3 => opening.site_limit = author.random.pick(&NEAR_WORD),
            4 => other_number_of_feeders(author, &mut opening),
            _ => {
                let place = author.random.below(opening.feeders.len() as u64) as usize;
                spoil(author, &mut opening.feeders[place]);
            }
        }
    }
    author.open_site(opening);
}

/// Calls for feeders that there are not, also where something else is to be refused after it.
fn no_such_feeder(author: &mut Author) {
    let after = count(author) + 1;
    let feeder = author.random.pick(&[0, 0, 0, after, after, after, 5, 257, 65_537, u32::MAX]);
    let line = author.random.pick(&[0, 1, 1, 2, 2, 3, 3, 4]);
    let mut order = due::some(author, line, 9);
    order.rate = author.random.pick(&[1, 1, 1, 2, 3]);
    order.feeder = feeder;
    match author.random.below(7) {
        0 => author.preview(order),
        1..=3 => {
            // The start that the nearest feeder would show, so that nothing else is wrong.
            let nearest = Order { feeder: feeder.clamp(1, after - 1), ..order };
            author.commit(order, author.shown(nearest));
        }
        4 => {
            let starts = vec![author.clock(); author.random.below(3) as usize];
            author.call(Call::Offer { feeder, starts });
        }
        5 => author.call(Call::Latest { feeder }),
        _ => {
            let allowance = author.random.pick(&[0, 1, 1_000, 1_001]);
            author.call(Call::Lines { feeder, allowance });
        }
    }
}

/// An order with one or two of its numbers at an edge or outside: a rate above W too.
fn order_at_the_edges(author: &mut Author) {
    let line = author.random.between(1, 3) as u32;
    let mut order = due::some(author, line, 9);
    for _ in 0..author.random.between(1, 2) {
        match author.random.below(6) {
            0 => order.line = author.random.pick(&[0, 4]),
            1 => order.time = author.random.pick(&[0, 1, 1_440, 1_441]),
            2 => order.due = author.random.pick(&[0, 2_000_000, 2_000_001]),
            _ => order.rate = author.random.pick(&[0, 2, 2, 2, 3]),
        }
    }
    author.preview(order);
    author.take(order);
}

/// Report lists of just as many places as the feeders need, one fewer, and as many as fewer
/// feeders would need.
fn clock_move(author: &mut Author, longest: u64) {
    let target = author.clock() + author.random.below(longest + 1) as u32;
    let enough = PLACES * count(author);
    let places =
        author.random.pick(&[enough, enough, enough, enough - 1, enough + 1, PLACES, PLACES - 1]);
    author.call(Call::Move { target, places });
}

/// A list for as many as wait on another feeder, or on the whole site.
fn list_of_others(author: &mut Author) {
    choose(author);
    let here = author.feeder;
    choose(author);
    let mut starts: Vec<u32> = author.waiting().iter().map(|charge| charge.start as u32).collect();
    if author.random.percent(30) {
        let clock = author.clock().into();
        let site = author.station().charges.iter().filter(|charge| !charge.begun(clock));
        starts = site.map(|charge| charge.start as u32).collect();
    }
    author.call(Call::Offer { feeder: here, starts });
}

/// The start shown is taken by somebody on another feeder, or is free again.
fn between_preview_and_commit(author: &mut Author, longest: u64) {
    choose(author);
    let line = author.random.between(1, 3) as u32;
    let order = due::some(author, line, longest);
    author.preview(order);
    let shown = author.shown(order);
    choose(author);
    match author.random.below(4) {
        0 => withdraw::withdraw(author),
        1 => replan(author),
        _ => due::order(author, line, longest),
    }
    author.commit(order, shown);
}

fn one_turn(author: &mut Author, longest: u64) {
    choose(author);
    match author.random.below(20) {
        0..=8 => mixed::one_call(author, longest),
        9 => order_at_the_edges(author),
        10..=11 => orders(author, 4, longest),
        12..=13 => replan(author),
        14..=15 => between_preview_and_commit(author, longest),
        16 => clock_move(author, longest),
        17 => list_of_others(author),
        18 => no_such_feeder(author),
        _ => {
            boards::board(author);
            withdraw::withdraw(author);
        }
    }
}

fn turns(author: &mut Author, number: u64, longest: u64) {
    for _ in 0..number {
        one_turn(author, longest);
        if author.random.percent(4) {
            author.ask_for_tickets();
        }
    }
}

/// A few calls after each opening, whether it was refused or not.
fn at_the_edges(author: &mut Author) {
    for _ in 0..author.random.between(2, 6) {
        opening_at_the_edges(author);
        let number = author.random.between(1, 5);
        turns(author, number, 6);
        no_such_feeder(author);
    }
}

/// A site limit that is smaller than a rate, or than a feeder's limit and bound: the rate is
/// refused, and lines wait for each other.
fn narrow_site(author: &mut Author) {
    let count = author.random.between(1, 3) as u32;
    let wide = |author: &mut Author| {
        let (limit, tail) = (author.random.between(2, 60) as u32, author.random.below(3) as u32);
        Settings { limit, percent: 100, tail }
    };
    let feeders = (0..count).map(|_| wide(author)).collect();
    let site_limit = author.random.pick(&[1, 1, 2, 3]);
    author.open_site(Opening { count, site_limit, feeders });
    for _ in 0..author.random.between(3, 9) {
        choose(author);
        let line = author.random.between(1, 3) as u32;
        let rate = author.random.pick(&[1, 2]);
        let order = Order { rate, ..due::some(author, line, 8) };
        author.preview(order);
        author.take(order);
        replan(author);
    }
    turns(author, 5, 8);
}

fn any_site(author: &mut Author) {
    let most = author.random.pick(&[1, 2, 4, 8]);
    let opening = site(author, most);
    author.open_site(opening);
    let longest = author.random.pick(&[3, 8, 20, 60]);
    let number = author.random.between(5, 35);
    turns(author, number, longest);
}

/// One feeder fills what the site may draw, for as long as the others want to: their charges go
/// before it, into its gaps or behind it, and move up when some of its charges go.
fn beside_a_full_one(author: &mut Author) {
    let others = author.random.between(1, 3) as u32;
    let limit = author.random.between(2, 6) as u32;
    let wide = Settings { limit, percent: 100, tail: 0 };
    let mut feeders = vec![Settings { tail: author.random.below(6) as u32, ..wide }];
    feeders.extend((0..others).map(|_| settings(author, 4)));
    let site_limit = author.random.pick(&[limit, limit, limit + 1, 2 * limit]);
    author.open_site(Opening { count: others + 1, site_limit, feeders });
    let longest = author.random.pick(&[6, 15, 30]);
    let minutes = author.random.below(3);
    for _ in 0..author.random.between(2, 12) {
        author.feeder = 1;
        let line = author.random.between(1, 3) as u32;
        due::order(author, line, longest);
    }
    author.move_on(minutes);
    for _ in 0..author.random.between(2, 8) {
        orders(author, 3, longest);
        author.feeder = author.random.between(2, u64::from(others) + 1) as u32;
        replan(author);
        if author.random.percent(40) {
            author.feeder = 1;
            withdraw::withdraw(author);
        }
        for feeder in 1..=others + 1 {
            author.feeder = feeder;
            replan(author);
        }
        author.move_on(minutes);
    }
}

/// The yard of cases e and f on one feeder, with other times: its begun charges lean on a
/// waiting one, and the site limit is in the way of some that could stand in for it.
fn leaning_feeder(author: &mut Author) {
    let long = author.random.between(4, 14) as u32;
    let short = author.random.between(2, u64::from(long) - 1) as u32;
    // With more points nothing of line 1 is placed where the balance is broken.
    let (limit, percent) = author.random.pick(&[(2, 50), (6, 17)]);
    let lean = Settings { limit, percent, tail: author.random.pick(&[0, 0, 1, 3]) };
    let count = author.random.between(2, 3) as u32;
    let own = author.random.between(1, count.into()) as u32;
    let mut feeders: Vec<Settings> = (0..count).map(|_| settings(author, 3)).collect();
    feeders[own as usize - 1] = lean;
    let site_limit = author.random.pick(&[4, 5, 6, 7, 720]);
    author.open_site(Opening { count, site_limit, feeders });
    let before = author.random.below(3);
    orders(author, before, long.into());
    author.feeder = own;
    let charges = match limit {
        2 => vec![(1, long), (3, long), (2, short), (2, short), (2, short), (1, long)],
        _ => vec![(1, long), (2, short), (2, long - short), (3, long), (1, long)],
    };
    for (line, time) in charges {
        let due = due::due(author, time);
        author.order(line, time, due);
    }
    for _ in 0..author.random.between(1, 4) {
        let minutes = author.random.below(u64::from(short) + 1);
        author.move_on(minutes);
        orders(author, 2, long.into());
        author.feeder = own;
        replan(author);
        author.latest();
        author.lines(1_000);
        withdraw::withdraw(author);
    }
}

/// "Cause 4 compares the largest s + p + r of the site": a plan may end later than every end now
/// held, as long as another feeder's tail, or its own, reaches as far.
fn by_the_last_tail(author: &mut Author) {
    let (own, other) = (author.random.below(6) as u32, author.random.below(6) as u32);
    let feeders = [own, other].map(|tail| Settings { limit: 1, percent: 100, tail });
    let site_limit = author.random.pick(&[2, 3, 720]);
    author.open_site(Opening { count: 2, site_limit, feeders: feeders.into() });
    let time = author.random.between(2, 9) as u32;
    // Its second one is late, and would not be if they changed places.
    author.order(1, time, 20 * time);
    author.order(1, time, time);
    let end = author.waiting().iter().map(|charge| charge.end()).max().unwrap_or(0) as u32;
    author.feeder = 2;
    let around = author.random.between(0, 12) as u32;
    let long = (end + around).saturating_sub(6).max(1);
    author.order(2, long, 2 * long);
    author.feeder = 1;
    for later in (0..=12).rev() {
        author.offer(vec![end - time + later, 0]);
    }
    author.latest();
    author.lines(10);
}

/// W counts in every minute of a charge: one that would start at once has room under it there,
/// and none where another feeder's charge begins before its end.
fn until_another_begins(author: &mut Author) {
    let site_limit = author.random.between(1, 2) as u32;
    let wide = |author: &mut Author| {
        let (more, tail) = (author.random.below(3) as u32, author.random.below(3) as u32);
        Settings { limit: site_limit + more, percent: 100, tail }
    };
    let feeders = vec![wide(author), wide(author)];
    author.open_site(Opening { count: 2, site_limit, feeders });
    let (own, other) = author.random.pick(&[(1, 2), (2, 1)]);
    let short = author.random.between(1, 6) as u32;
    let long = short + author.random.between(1, 6) as u32;
    let between = author.random.between(1, 9) as u32;
    // Each of them takes all of the site; the last one is late, and would not be at the clock.
    for (feeder, time, due) in [(own, short, 200), (other, between, 200), (own, long, long)] {
        let line = author.random.between(1, 3) as u32;
        author.take(Order { feeder, line, time, due, rate: site_limit });
    }
    author.feeder = own;
    let end = author.waiting().iter().map(|charge| charge.end()).max().unwrap_or(0) as u32;
    for start in 0..3 {
        author.offer(vec![end - short, start]);
    }
    author.latest();
    author.lines(10);
    if author.random.percent(50) {
        // Now the long one has room where it was offered to be.
        author.withdraw(2);
        author.offer(vec![end - short, 0]);
    }
    turns(author, 3, 9);
}

/// One feeder under a site limit that binds: its lines wait for each other. An image holds a site
/// of one feeder alone, so those with such a limit come from here.
pub fn one_feeder(author: &mut Author) {
    let feeder = settings(author, 8);
    let most = u64::from(3 * feeder.limit) - 1;
    let any = author.random.between(1, most);
    let site_limit = author.random.pick(&[1, 2, feeder.limit.into(), most, any, any]).min(most);
    let feeders = vec![feeder];
    author.open_site(Opening { count: 1, site_limit: site_limit as u32, feeders });
    let longest = author.random.pick(&[8, 20, 60]);
    for _ in 0..author.random.between(1, 4) {
        let number = site_limit + author.random.below(6);
        orders(author, number, longest);
        let number = author.random.below(8);
        turns(author, number, longest);
    }
}

/// One feeder holds 180, which is refused there alone; a move reports all feeders' charges by
/// their starts.
fn full_feeder(author: &mut Author) {
    let count = author.random.between(1, 3) as u32;
    let limit = author.random.pick(&[3, 20, 60]);
    let feeders: Vec<Settings> =
        (0..count).map(|_| Settings { limit, percent: 100, tail: 1 }).collect();
    let site_limit = author.random.pick(&[limit, 3 * limit, 720]);
    author.open_site(Opening { count, site_limit, feeders });
    let longest = author.random.pick(&[2, 8]);
    orders(author, 20, longest);
    let crowded = author.random.between(1, count.into()) as u32;
    author.feeder = crowded;
    full::fill(author, longest);
    for feeder in 1..=count + 1 {
        let order = Order { feeder, line: 1, time: 2, due: 4, rate: 1 };
        author.preview(order);
        author.take(order);
    }
    author.feeder = crowded;
    plans::offer(author);
    author.lines(20);
    author.latest();
    withdraw::withdraw(author);
    for _ in 0..3 {
        clock_move(author, longest);
        commits::one_driver(author, longest);
        boards::board(author);
    }
}

pub fn write(author: &mut Author) {
    match author.random.below(46) {
        0..=4 => at_the_edges(author),
        5..=7 => narrow_site(author),
        8..=19 => any_site(author),
        20..=28 => beside_a_full_one(author),
        29..=34 => leaning_feeder(author),
        35..=38 => by_the_last_tail(author),
        39..=41 => until_another_begins(author),
        42..=44 => one_feeder(author),
        _ => full_feeder(author),
    }
}
