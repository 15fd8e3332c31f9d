//! Lists of starts to offer: good ones, nearly good ones and hopeless ones.

use super::author::Author;
use crate::reference::last_end;

fn held_starts(author: &Author) -> Vec<u32> {
    author.waiting().iter().map(|charge| charge.start as u32).collect()
}

/// The waiting charges placed one after the other in a turn drawn by lot: sound
/// whenever the begun charges allow it, and often better than the held plan.
fn by_lot(author: &mut Author) -> Option<Vec<u32>> {
    let mut turn = author.waiting();
    author.random.shuffle(&mut turn);
    let starts = author.station().place_in_turn(author.feeder, &turn)?;
    Some(starts.iter().map(|start| *start as u32).collect())
}

/// The least late of some such plans that end no later than the held one.
fn improving(author: &mut Author) -> Vec<u32> {
    let mut best = held_starts(author);
    let mut least = u64::MAX;
    for _ in 0..8 {
        let Some(starts) = by_lot(author) else { continue };
        let mut station = author.station().clone();
        let wide: Vec<u64> = starts.iter().map(|start| u64::from(*start)).collect();
        let planned = station.take_or_keep(author.feeder, &wide, 0);
        if planned.cause == 0 && planned.after < least {
            least = planned.after;
            best = starts;
        }
    }
    best
}

/// A good plan with starts moved back, to any minute up to the last end, as long as it is
/// still taken: what is sound and less late, and full of gaps.
fn spread(author: &mut Author) -> Vec<u32> {
    let mut starts = improving(author);
    let last = last_end(&author.station().charges);
    for _ in 0..2 * starts.len() {
        let place = author.random.below(starts.len() as u64) as usize;
        let room = last.saturating_sub(starts[place].into());
        let mut moved = starts.clone();
        moved[place] += author.random.below(room + 1) as u32;
        let wide: Vec<u64> = moved.iter().map(|start| u64::from(*start)).collect();
        if author.station().cause(author.feeder, &wide) == 0 {
            starts = moved;
        }
    }
    starts
}

pub fn offer_spread(author: &mut Author) {
    let starts = spread(author);
    author.offer(starts);
}

/// Two waiting charges change their starts.
fn swapped(author: &mut Author) -> Vec<u32> {
    let mut starts = held_starts(author);
    if !starts.is_empty() {
        let one = author.random.below(starts.len() as u64) as usize;
        let other = author.random.below(starts.len() as u64) as usize;
        starts.swap(one, other);
    }
    starts
}

/// One start of a good plan a little earlier or later.
fn nearly(author: &mut Author) -> Vec<u32> {
    let mut starts = if author.random.percent(50) { improving(author) } else { swapped(author) };
    if !starts.is_empty() {
        let place = author.random.below(starts.len() as u64) as usize;
        let step = author.random.pick(&[1, 1, 1, 2, 5]);
        starts[place] = if author.random.percent(50) {
            starts[place].saturating_sub(step)
        } else {
            starts[place].saturating_add(step)
        };
    }
    starts
}

/// Everything as early as it goes: full lines, and ends that are no later.
fn all_at_once(author: &mut Author) -> Vec<u32> {
    let clock = author.clock();
    let wide = author.random.percent(50);
    let waiting = author.waiting().len();
    (0..waiting).map(|_| clock + if wide { author.random.below(6) as u32 } else { 0 }).collect()
}

/// A start near 2^32, where start + p needs more than 32 bits; and with luck a
/// start below the clock too, whose cause comes first.
fn far(author: &mut Author) -> Vec<u32> {
    let mut starts = held_starts(author);
    let times: Vec<u64> = author.waiting().iter().map(|charge| charge.time).collect();
    if starts.is_empty() {
        return starts;
    }
    let place = author.random.below(starts.len() as u64) as usize;
    let back = author.random.pick(&[0, 1, times[place] - 1, times[place], times[place] + 1]);
    starts[place] = u32::MAX - back as u32;
    if author.random.percent(20) {
        let other = author.random.below(starts.len() as u64) as usize;
        starts[other] = author.clock().saturating_sub(1);
    }
    starts
}

/// One start too few or too many, or many. More than 180 are the kind `lists`.
fn wrong_length(author: &mut Author) -> Vec<u32> {
    let mut starts = held_starts(author);
    match author.random.below(3) {
        0 => {
            starts.pop();
        }
        1 if starts.len() < 180 => starts.push(author.clock()),
        _ => starts.resize(author.random.between(0, 180) as usize, u32::MAX),
    }
    starts
}

/// Just the held plan, or one moved below the clock.
fn below_clock(author: &mut Author) -> Vec<u32> {
    let mut starts = held_starts(author);
    let clock = author.clock();
    if let Some(start) = starts.last_mut() {
        *start = clock.saturating_sub(1);
    }
    starts
}

/// Offers a list of any of these sorts.
pub fn offer(author: &mut Author) {
    let starts = match author.random.below(16) {
        0..=4 => improving(author),
        5..=7 => nearly(author),
        8..=9 => swapped(author),
        10 => by_lot(author).unwrap_or_default(),
        11 => all_at_once(author),
        12 => far(author),
        13 => wrong_length(author),
        14 => below_clock(author),
        _ => held_starts(author),
    };
    author.offer(starts);
}
