//! Clock moves that leave begun charges leaning on waiting ones, as in cases e
//! to g: "Judging soundness from begun charges alone. They may lean on a waiting
//! one". Small bounds and small steps of the clock bring it about.

use super::author::Author;
use super::due;
use crate::yard::Order;

fn replans(author: &mut Author) {
    for _ in 0..author.random.between(1, 3) {
        match author.random.below(3) {
            0 => author.latest(),
            1 => {
                let allowance = author.random.pick(&[1, 2, 3, 4, 6, 1_000]);
                author.lines(allowance);
            }
            _ => super::plans::offer(author),
        }
    }
}

/// The yard of cases e and f with other times, up to the moment when tickets
/// begun on line 1 lean on the waiting one of line 2.
fn as_in_the_cases(author: &mut Author) {
    let long = author.random.between(4, 14) as u32;
    let short = author.random.between(1, u64::from(long)) as u32;
    author.open(2, 50);
    for (line, time) in [(1, long), (3, long), (2, short), (2, short), (2, short), (1, long)] {
        let due = due::due(author, time);
        author.order(line, time, due);
    }
    let minutes = author.random.between(1, u64::from(short));
    author.move_on(minutes);
    let line = author.random.between(1, 3) as u32;
    due::order(author, line, 6);
    replans(author);
}

/// Line 1's two long charges lean on the waiting one of line 2. A round starts
/// that one at once, so it ends too early, and nothing of line 1 can give way:
/// "If no placed charge of i is active in t: cause 1." The same with all rates and the
/// bound doubled.
fn nothing_placed_there(author: &mut Author) {
    let long = author.random.between(4, 20) as u32;
    let short = author.random.between(2, u64::from(long) - 1) as u32;
    let rate = author.random.pick(&[1, 1, 2]);
    let limit = author.random.between(3 * u64::from(rate), 8);
    due::open_with_bound(author, limit, rate.into());
    for (line, time) in [(1, long), (2, short), (2, long - short), (3, long), (1, long)] {
        let due = due::due(author, time);
        author.take(Order { feeder: author.feeder, line, time, due, rate });
    }
    let minutes = author.random.between(0, u64::from(short) - 1);
    author.move_on(minutes);
    if author.random.percent(40) {
        let line = author.random.between(1, 3) as u32;
        due::order(author, line, 6);
    }
    let allowance = author.random.pick(&[1, 2, 3, 1_000]);
    author.lines(allowance);
}

/// With the wider one there are charges of rate 2 as well.
fn narrow(author: &mut Author) {
    let limit = author.random.between(2, 8);
    let bound = author.random.pick(&[1, 1, 2]);
    due::open_with_bound(author, limit, bound);
}

pub fn write(author: &mut Author) {
    match author.random.below(4) {
        0 => as_in_the_cases(author),
        1 => nothing_placed_there(author),
        _ => narrow(author),
    }
    let longest = author.random.pick(&[4, 8, 16]);
    for _ in 0..author.random.between(3, 12) {
        for _ in 0..author.random.between(1, 6) {
            let line = author.random.between(1, 3) as u32;
            due::order(author, line, longest);
        }
        let minutes = author.random.between(0, 3);
        author.move_on(minutes);
        replans(author);
    }
}
