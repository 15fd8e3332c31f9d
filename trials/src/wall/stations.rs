//! Stations for the wall. What the calls give is one part of them; the others are from
//! elsewhere: tickets with gaps, starts in any order, numbers up to the largest there are.

use crate::generate;
use crate::interpret::Interpreter;
use crate::random::Random;
use crate::reference::{Charge, Feeder, Station};

/// Of the rules for an image: no end is later than this for each ticket given.
const FOR_A_TICKET: u64 = 1_445;
const LAST_CLOCK: u64 = 1_000_000;
const LAST_TICKET: u64 = 65_535;

/// 60 points on each line, which may differ as they like: whatever starts the charges have,
/// 60 on a line are sound.
pub fn wide(tail: u64, clock: u64, next_ticket: u64) -> Station {
    Station { clock, next_ticket: next_ticket as u32, ..Station::fresh(60, 100, tail) }
}

/// The latest end that an image may hold.
pub fn last_end(station: &Station) -> u64 {
    station.clock + FOR_A_TICKET * u64::from(station.next_ticket - 1)
}

/// So many charges that have begun, are in their tails or wait, with tickets that have gaps at
/// times.
pub fn crowd(random: &mut Random, held: usize) -> Station {
    let gap = random.pick(&[1, 1, 2, 300]);
    let mut tickets = Vec::new();
    let mut ticket = random.pick(&[0, 0, 9, 95, 990]);
    for _ in 0..held {
        ticket += random.between(1, gap);
        tickets.push(ticket);
    }
    let next = (ticket + random.between(1, gap)).min(LAST_TICKET + 1);
    let clock = up_to_digits(random, 6);
    let mut station = wide(random.below(6), clock, next);
    for (place, ticket) in tickets.into_iter().enumerate() {
        let charge = drawn(random, &station, ticket, place as u32 % 3 + 1);
        station.charges.push(charge);
    }
    station
}

/// A number of as many digits as any other, up to so many.
fn up_to_digits(random: &mut Random, most: u64) -> u64 {
    let digits = random.between(0, most) as u32;
    random.below(10u64.pow(digits) + 1)
}

/// A charge that an image of the station may hold.
fn drawn(random: &mut Random, station: &Station, ticket: u64, line: u32) -> Charge {
    let (clock, Feeder { tail, .. }) = (station.clock, station.feeders[0]);
    let latest = last_end(station);
    let longest = random.pick(&[1, 20, 1_440]).min(latest);
    let time = random.between(1, longest);
    let least = (clock + 1).saturating_sub(time + tail);
    let start = match random.below(8) {
        // The last minute of the tail, and where its charging ends just now.
        0 => least,
        1 => (clock.max(time) - time).max(least),
        2 => clock,
        3 => clock.saturating_sub(1).max(least),
        4 => random.between(least, clock.max(least)),
        5 => latest - time,
        6 => clock + up_to_digits(random, 8),
        _ => random.between(clock, latest),
    };
    let start = start.clamp(least, latest - time);
    let order = random.between(0, start.min(clock));
    let due = random.below(2_000_001);
    let (ticket, feeder, rate) = (ticket as u32, 1, 1);
    Charge { ticket, feeder, line, order, time, due, rate, start, tail }
}

/// The largest number that each column can show, with one digit fewer before it, and the
/// smallest.
pub fn largest() -> Station {
    let mut station = wide(5, LAST_CLOCK, LAST_TICKET + 1);
    let latest = last_end(&station);
    let (feeder, line, order, due, rate, tail) = (1, 3, 0, 2_000_000, 1, 5);
    for (ticket, time, end) in [
        (1, 1_440, LAST_CLOCK - 4),
        (9_999, 1, 9_999_999),
        (10_000, 1, 10_000_000),
        (65_534, 1_440, latest),
        (65_535, 1, latest),
    ] {
        let start = end - time;
        let charge = Charge { ticket, feeder, line, order, time, due, rate, start, tail };
        station.charges.push(charge);
    }
    station
}

/// What the calls of a script give after so many of its lines of a hundred.
pub fn of_script(kind: &str, seed: u64, number: u64, hundredths: u64) -> Station {
    let mut yard = Interpreter::new(Station::fresh(1, 100, 0));
    let lines = generate::script_of_kind(kind, seed, number).unwrap_or_default().lines;
    for line in &lines[..lines.len() * hundredths as usize / 100] {
        yard.answer(line, &mut Vec::new());
    }
    yard.yard().clone()
}

#[cfg(test)]
mod tests {
    use super::*;
    use crate::image::{image_of, restore};

    /// What is drawn here is accepted, so that there is a page to print.
    #[test]
    fn images_are_accepted() {
        let mut random = Random::new(1);
        for turn in 0..400 {
            let held = random.pick(&[0, 1, 2, 24, 180]);
            let station = crowd(&mut random, held);
            assert_eq!(restore(&image_of(&station)), Ok(station), "{turn}");
        }
        assert_eq!(restore(&image_of(&largest())), Ok(largest()));
        let station = of_script("tails", 1, 1, 60);
        assert_eq!(restore(&image_of(&station)), Ok(station));
    }

    #[test]
    fn the_largest_end_has_eight_digits() {
        assert_eq!(last_end(&largest()), 95_698_075);
    }
}
