//! "All three end with the same test. Causes for keeping the old plan, first that
//! applies". Each cause is about all starts or all minutes, so each is gone
//! through to its end before the next one is looked at. "Cause 4 compares the largest s + p +
//! r of the site, cause 5 includes W, lateness is the feeder's" (N14).

use super::minutes;
use super::station::{last_clear, lateness, of_feeder, Station};
use crate::yard::Planned;

pub const NO_START: u32 = 1;
pub const ALLOWANCE_SPENT: u32 = 2;
const START_BELOW_CLOCK: u32 = 3;
const LATER_END: u32 = 4;
const ABOVE_LIMIT: u32 = 5;
const ABOVE_BOUND: u32 = 6;
const NOT_LESS_LATE: u32 = 7;
const TAKEN: u32 = 0;

/// The starts that a replan found, in ticket order, or the cause for having none.
pub type List = Result<Vec<u64>, u32>;

impl Station {
    /// The first cause from 3 to 7 that applies to these starts of the feeder, or 0.
    pub fn cause(&self, feeder: u32, starts: &[u64]) -> u32 {
        if starts.iter().any(|start| *start < self.clock) {
            return START_BELOW_CLOCK;
        }
        let site = self.with_starts(feeder, starts);
        // Past this test nothing draws later than what is held, so the minutes
        // below are few however large the offered starts were.
        if last_clear(&site) > last_clear(&self.charges) {
            return LATER_END;
        }
        let length = last_clear(&site).max(self.clock) - self.clock;
        let plan = of_feeder(&site, feeder);
        let counts = minutes::counts(&plan, self.clock, length);
        let in_all = minutes::site_counts(&site, self.clock, length);
        let rules = self.rules(feeder);
        let within_limit = counts.iter().all(|counts| rules.within_limit(counts));
        if !within_limit || in_all.iter().any(|count| *count > rules.site) {
            return ABOVE_LIMIT;
        }
        if !counts.iter().all(|counts| rules.balanced(counts)) {
            return ABOVE_BOUND;
        }
        if lateness(&plan) >= self.lateness(feeder) {
            return NOT_LESS_LATE;
        }
        TAKEN
    }

    /// That of the charges that the feeder holds.
    pub fn lateness(&self, feeder: u32) -> u64 {
        lateness(&self.held(feeder))
    }

    /// How both replans end: with the test, if there is something to test.
    pub fn end_with(&mut self, feeder: u32, list: List, rounds: u32) -> Planned {
        match list {
            Err(cause) => self.keep(feeder, cause, rounds),
            Ok(starts) => self.take_or_keep(feeder, &starts, rounds),
        }
    }

    /// "Cause 0 means taken: the waiting charges get these starts. Otherwise the
    /// station is unchanged."
    pub fn take_or_keep(&mut self, feeder: u32, starts: &[u64], rounds: u32) -> Planned {
        let cause = self.cause(feeder, starts);
        if cause != TAKEN {
            return self.keep(feeder, cause, rounds);
        }
        let before = self.lateness(feeder);
        self.charges = self.with_starts(feeder, starts);
        Planned { cause, before, after: self.lateness(feeder), rounds }
    }

    /// "lateness before and after (equal when kept)"
    pub fn keep(&self, feeder: u32, cause: u32, rounds: u32) -> Planned {
        let before = self.lateness(feeder);
        Planned { cause, before, after: before, rounds }
    }
}
