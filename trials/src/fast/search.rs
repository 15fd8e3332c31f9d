//! The earliest start of an order (N6). The test of a candidate ends at its first failing
//! minute, and the next candidate lies behind the step that fails there. Loads are added
//! to the profile only as far as the search looks: those that start in a window from the
//! clock on, which is as long as the charge at first and reaches more than twice as far
//! whenever the search has come to its end. The windows are those of the proved program
//! (`earliest_start` in `crates/orders/src/start.rt`). Loads of other feeders count for the
//! site alone (N14) and come in the same windows.

use super::profile::{Load, Profile, Rules, Wanted};
use super::station::Station;

/// So many minutes more than twice as far as the last one a window reaches.
const WIDER: u32 = 240;

/// Adds the loads, as the feeder in this place sees them, of the charges with a start from
/// `low` up to `high`.
fn add_started(profile: &mut Profile, station: &Station, place: usize, low: u32, high: u32) {
    for (other, feeder) in station.feeders.iter().enumerate() {
        for charge in &feeder.charges {
            if low <= charge.start && charge.start < high {
                let load = charge.load(feeder.tail).seen_from(place == other);
                profile.add(Load { from: load.from.max(station.clock), ..load });
            }
        }
    }
}

/// The first start, not below the one given, that fits by the minutes below `until`, or
/// one that reaches `until` or behind.
fn first_fitting(
    profile: &Profile,
    wanted: Wanted,
    rules: Rules,
    mut start: u32,
    until: u32,
) -> u32 {
    let mut step = profile.step_of(start);
    while start + wanted.time <= until {
        let tested = profile.test(step, start, wanted, rules);
        if tested.fits {
            return start;
        }
        step = tested.step + 1;
        start = profile.until(tested.step).min(until);
    }
    start
}

/// The smallest start, not below the clock, with which the feeder's held charges, which are
/// sound, and this one are sound together and the site is within its limit. The time wanted has
/// the tail in it.
pub fn earliest(station: &Station, place: usize, wanted: Wanted) -> u32 {
    let (clock, rules) = (station.clock, station.feeders[place].rules);
    let mut profile = Profile::empty(clock);
    let (mut start, mut low, mut until) = (clock, 0, clock + wanted.time);
    loop {
        add_started(&mut profile, station, place, low, until);
        start = first_fitting(&profile, wanted, rules, start, until);
        if start + wanted.time <= until {
            return start;
        }
        low = until;
        until = start + wanted.time + (until - clock) + WIDER;
    }
}

#[cfg(test)]
mod tests {
    use super::*;
    use crate::fast::profile::Tested;
    use crate::fast::station::{Charge, Feeder};
    use crate::random::Random;
    use crate::reference::{self, minutes};

    const CLOCK: u32 = 100;
    const RULES: Rules = Rules { limit: 3, bound: 2, site: 9 };
    const TAIL: u32 = 4;

    fn charges(random: &mut Random, count: u64) -> Vec<Charge> {
        let charge = |ticket| Charge {
            ticket: ticket as u32,
            line: random.below(3) as usize,
            order: 0,
            time: random.between(21, 60) as u32,
            due: 0,
            rate: random.between(1, 2) as u16,
            start: CLOCK - 20 + random.below(220) as u32,
        };
        (0..count).map(charge).collect()
    }

    fn slow(charge: &Charge, feeder: u32) -> reference::Charge {
        let Charge { ticket, line, time, due, rate, start, .. } = *charge;
        let (line, rate, tail) = (line as u32 + 1, rate.into(), TAIL.into());
        let (time, due, start) = (time.into(), due.into(), start.into());
        reference::Charge { ticket, feeder, line, order: 0, time, due, rate, start, tail }
    }

    /// Number and verdict are those of the reference, for any plan and candidate, and with
    /// charges of another feeder beside it.
    #[test]
    fn minutes_looked_at() {
        let mut random = Random::new(5);
        for _ in 0..300 {
            let (count, beside) = (random.below(9), random.below(6));
            let (plan, others) = (charges(&mut random, count), charges(&mut random, beside));
            let seen = |plan: &[Charge], own| {
                let load = |charge: &Charge| charge.load(TAIL).seen_from(own);
                plan.iter().map(load).collect::<Vec<Load>>()
            };
            let loads = [seen(&plan, true), seen(&others, false)].concat();
            let profile = Profile::of(loads.into_iter(), CLOCK);
            let candidate = charges(&mut random, 1)[0];
            let Charge { line, rate, time, .. } = candidate;
            let time = time + TAIL;
            let site = random.between(2, 12);
            let rules = Rules { site: site as u16, ..RULES };
            let own = plan.iter().map(|charge| slow(charge, 1));
            let slow_plan: Vec<_> =
                own.chain(others.iter().map(|charge| slow(charge, 2))).collect();
            for start in CLOCK..CLOCK + 260 {
                let slow_rules = minutes::Rules { limit: 3, bound: 2, site };
                let candidate = slow(&candidate, 1).starting_at(start.into());
                let expected = reference::search::test(&slow_plan, &candidate, slow_rules);
                let step = profile.step_of(start);
                let Tested { fits, looked, .. } =
                    profile.test(step, start, Wanted { line, rate, time }, rules);
                assert_eq!((fits, u64::from(looked)), (expected.fits, expected.looked));
                assert!(1 <= looked && looked <= time);
            }
        }
    }

    /// Whatever is in the window when it is found, the start is the first one that fits
    /// into the whole profile.
    #[test]
    fn windows_leave_nothing_out() {
        let mut random = Random::new(6);
        for _ in 0..2_000 {
            let mut station = Station::fresh(1, 100, TAIL);
            let others = random.below(4) as usize;
            station.clock = CLOCK;
            station.feeders.extend((0..others).map(|_| Feeder::new(1, 100, TAIL, 9)));
            let rules = Rules { site: random.between(3, 20) as u16, ..RULES };
            for feeder in &mut station.feeders {
                let count = random.below(12);
                (feeder.rules, feeder.charges) = (rules, charges(&mut random, count));
            }
            let place = random.below(others as u64 + 1) as usize;
            let profile = station.profile(place, station.feeders[place].charges.iter());
            let time = random.pick(&[1, 2, 7, 30, 200]);
            let (line, rate) = (random.below(3) as usize, random.between(1, 2) as u16);
            let expected = profile.earliest(line, rate, time, CLOCK, rules);
            assert_eq!(earliest(&station, place, Wanted { line, rate, time }), expected);
        }
    }
}
