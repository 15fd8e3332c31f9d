//! "All three end with the same test", and "Replan by latest start".

use super::profile::Load;
use super::station::{Charge, Feeder, Station};
use crate::yard::Planned;

pub const NO_START: u32 = 1;
pub const ALLOWANCE_SPENT: u32 = 2;

/// A plan that passed the test, with its lateness.
struct Passed {
    charges: Vec<Charge>,
    lateness: u64,
}

fn lateness(charges: &[Charge]) -> u64 {
    charges.iter().map(|charge| u64::from(charge.end().saturating_sub(charge.due))).sum()
}

impl Station {
    /// The last minute after which nothing of the site draws: the largest s + p + r.
    fn last_clear(&self) -> u32 {
        let clear =
            |feeder: &Feeder| feeder.charges.iter().map(|charge| charge.end() + feeder.tail).max();
        self.feeders.iter().filter_map(clear).max().unwrap_or(0)
    }

    /// The causes in their order; the minutes are looked at only once nothing draws
    /// later than what is held, so all numbers fit in 32 bits there.
    fn test(&self, place: usize, starts: &[u32], held: u64) -> Result<Passed, u32> {
        if starts.iter().any(|start| *start < self.clock) {
            return Err(3);
        }
        let feeder = &self.feeders[place];
        let last_clear = u64::from(self.last_clear());
        let too_late = |(charge, start): (&Charge, &u32)| {
            u64::from(*start) + u64::from(charge.time + feeder.tail) > last_clear
        };
        if feeder.waiting(self.clock).zip(starts).any(too_late) {
            return Err(4);
        }
        let mut charges = feeder.charges.clone();
        let waiting = charges.iter_mut().filter(|charge| charge.start >= self.clock);
        for (charge, start) in waiting.zip(starts) {
            charge.start = *start;
        }
        let profile = self.profile(place, charges.iter());
        if !profile.within_limits(feeder.rules) {
            return Err(5);
        }
        if profile.first_unbalanced(feeder.rules).is_some() {
            return Err(6);
        }
        let lateness = lateness(&charges);
        if lateness >= held {
            return Err(7);
        }
        Ok(Passed { charges, lateness })
    }

    pub fn take_or_keep(&mut self, place: usize, starts: &[u32], rounds: u32) -> Planned {
        let before = lateness(&self.feeders[place].charges);
        match self.test(place, starts, before) {
            Err(cause) => Planned { cause, before, after: before, rounds },
            Ok(passed) => {
                self.feeders[place].charges = passed.charges;
                Planned { cause: 0, before, after: passed.lateness, rounds }
            }
        }
    }

    pub fn keep(&self, place: usize, cause: u32, rounds: u32) -> Planned {
        let before = lateness(&self.feeders[place].charges);
        Planned { cause, before, after: before, rounds }
    }

    /// The feeder's waiting charges by d − p, then ticket, each with its place in an offer.
    pub fn in_latest_start_order(&self, place: usize) -> Vec<(usize, Charge)> {
        let waiting = self.feeders[place].waiting(self.clock);
        let mut waiting: Vec<(usize, Charge)> = waiting.copied().enumerate().collect();
        waiting.sort_unstable_by_key(|(place, charge)| (charge.latest_start(), *place));
        waiting
    }

    pub fn by_latest_start(&mut self, place: usize) -> Planned {
        match self.latest_starts(place) {
            None => self.keep(place, NO_START, 0),
            Some(starts) => self.take_or_keep(place, &starts, 0),
        }
    }

    /// Begun charges may be unsound without the waiting ones. Then the first
    /// charge has to cover every unsound minute, and from there on all is sound.
    fn latest_starts(&self, place: usize) -> Option<Vec<u32>> {
        let feeder = &self.feeders[place];
        let mut profile = self.profile(place, feeder.begun(self.clock));
        let waiting = self.in_latest_start_order(place);
        let mut starts = vec![0; waiting.len()];
        let mut span = profile.unsound_span(feeder.rules);
        for (offered, charge) in waiting {
            let (first, after) = span.take().unwrap_or((u32::MAX, 0));
            let Charge { line, rate, time, .. } = charge;
            let time = time + feeder.tail;
            let least = after.saturating_sub(time).max(self.clock);
            let start = profile.earliest(line, rate, time, least, feeder.rules);
            if start > first {
                return None;
            }
            profile.add(Load { line, rate, from: start, until: start + time });
            starts[offered] = start;
        }
        Some(starts)
    }
}
