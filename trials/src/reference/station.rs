//! "A **station** holds a limit N, a percentage c, a bound D, a clock, the next
//! ticket and up to 180 charges". "A **charge** has a ticket, a line, an order
//! minute, a charging time p, a due minute d and a start s." "Each order states a rate,
//! 1 or 2" (N4). With N14 the station is a site: "Larger yards have 1 to 4 feeders, each with
//! its own N, c, r and 180 places, under a site limit W on the weighted count of all lines in
//! a minute. One clock and one ticket row serve the site".

use super::minutes::Rules;

/// "up to 180 charges", on each feeder
pub const PLACES: usize = 180;
/// "W 720" stands beside a refused opening.
pub const WIDEST_SITE: u64 = 720;

#[derive(Clone, Copy, Debug, PartialEq, Eq)]
pub struct Charge {
    pub ticket: u32,
    /// From 1.
    pub feeder: u32,
    pub line: u32,
    pub order: u64,
    pub time: u64,
    pub due: u64,
    pub rate: u32,
    pub start: u64,
    /// r of the feeder that holds it.
    pub tail: u64,
}

impl Charge {
    /// "Its end is s + p." In 64 bits, because an offered start is any u32.
    pub fn end(&self) -> u64 {
        self.start + self.time
    }

    /// s + p + r: "a point as drawing for r minutes after its end" (N7).
    pub fn clear(&self) -> u64 {
        self.end() + self.tail
    }

    /// Its active minutes, tail included.
    pub fn active_time(&self) -> u64 {
        self.time + self.tail
    }

    /// "A charge is active, for limit and balance, in minutes s to s + p + r − 1" (N7).
    pub fn active_in(&self, minute: u64) -> bool {
        self.start <= minute && minute < self.clear()
    }

    /// "It is *begun* when s is below the clock, else *waiting*"
    pub fn begun(&self, clock: u64) -> bool {
        self.start < clock
    }

    /// "is finished when s + p + r is at or below the clock" (N7)
    pub fn finished(&self, clock: u64) -> bool {
        self.clear() <= clock
    }

    /// "a charge of rate 2 counts as two wherever a line is counted" (N4)
    pub fn weight(&self) -> u64 {
        self.rate.into()
    }

    /// d − p: "A latest start may now be negative" (N1).
    pub fn latest_start(&self) -> i64 {
        self.due as i64 - self.time as i64
    }

    /// max(0, end − d), however early d is: "its lateness still uses s + p" (N7).
    pub fn lateness(&self) -> u64 {
        self.end().saturating_sub(self.due)
    }

    pub fn starting_at(mut self, start: u64) -> Charge {
        self.start = start;
        self
    }
}

/// What each feeder has of its own, but for its charges.
#[derive(Clone, Copy, Debug, PartialEq, Eq)]
pub struct Feeder {
    pub limit: u64,
    pub percent: u64,
    pub bound: u64,
    /// r: contactors open so many minutes late (N7).
    pub tail: u64,
}

impl Feeder {
    pub fn new(limit: u64, percent: u64, tail: u64) -> Feeder {
        Feeder { limit, percent, bound: bound(limit, percent), tail }
    }
}

#[derive(Clone, Debug, PartialEq, Eq)]
pub struct Station {
    /// W
    pub site_limit: u64,
    pub feeders: Vec<Feeder>,
    pub clock: u64,
    pub next_ticket: u32,
    /// Of all feeders, in ticket order: orders append, and dropping keeps the order.
    pub charges: Vec<Charge>,
}

impl Station {
    /// One feeder under a site limit of 720.
    pub fn fresh(limit: u64, percent: u64, tail: u64) -> Station {
        Station::of(WIDEST_SITE, vec![Feeder::new(limit, percent, tail)])
    }

    /// "A fresh station: clock 0, next ticket 1, no charges."
    pub fn of(site_limit: u64, feeders: Vec<Feeder>) -> Station {
        Station { site_limit, feeders, clock: 0, next_ticket: 1, charges: Vec::new() }
    }

    /// The feeder with this number, "from 1", if there is one.
    pub fn feeder(&self, number: u32) -> Option<&Feeder> {
        self.feeders.get((number as usize).checked_sub(1)?)
    }

    /// Limit and bound of a feeder that there is, and the site limit.
    pub fn rules(&self, feeder: u32) -> Rules {
        let Feeder { limit, bound, .. } = self.feeders[feeder as usize - 1];
        Rules { limit, bound, site: self.site_limit }
    }

    fn those(&self, wanted: impl Fn(&Charge) -> bool) -> Vec<Charge> {
        self.charges.iter().copied().filter(wanted).collect()
    }

    /// The charges that a feeder holds.
    pub fn held(&self, feeder: u32) -> Vec<Charge> {
        of_feeder(&self.charges, feeder)
    }

    pub fn begun(&self, feeder: u32) -> Vec<Charge> {
        self.those(|charge| charge.feeder == feeder && charge.begun(self.clock))
    }

    pub fn waiting(&self, feeder: u32) -> Vec<Charge> {
        self.those(|charge| charge.feeder == feeder && !charge.begun(self.clock))
    }

    /// What a replan of the feeder finds before it places a charge: "other feeders' charges,
    /// all begun ones".
    pub fn unmoved(&self, feeder: u32) -> Vec<Charge> {
        self.those(|charge| charge.feeder != feeder || charge.begun(self.clock))
    }

    /// The held charges with other starts for the waiting ones of the feeder, in ticket order.
    pub fn with_starts(&self, feeder: u32, starts: &[u64]) -> Vec<Charge> {
        let mut starts = starts.iter();
        let mut charges = self.charges.clone();
        for charge in &mut charges {
            if charge.feeder == feeder && !charge.begun(self.clock) {
                charge.start = *starts.next().expect("one start for each waiting charge");
            }
        }
        charges
    }
}

/// Those of one feeder.
pub fn of_feeder(charges: &[Charge], feeder: u32) -> Vec<Charge> {
    charges.iter().copied().filter(|charge| charge.feeder == feeder).collect()
}

/// "D becomes c × N / 100 rounded to the nearest whole number, an exact half to the
/// even one" (N3). Found by trying: of all whole numbers up to N the one that is least
/// away, in hundredths, and the even one of two that are.
pub fn bound(limit: u64, percent: u64) -> u64 {
    let away = |whole: u64| (100 * whole).abs_diff(percent * limit);
    (0..=limit).min_by_key(|whole| (away(*whole), whole % 2)).expect("0 is always tried")
}

/// "**Lateness** is the sum of max(0, end − d) over the charges held"; with N14 "lateness is
/// the feeder's".
pub fn lateness(charges: &[Charge]) -> u64 {
    charges.iter().map(Charge::lateness).sum()
}

/// The last s + p (0 if none).
pub fn last_end(charges: &[Charge]) -> u64 {
    charges.iter().map(Charge::end).max().unwrap_or(0)
}

/// "Cause 4 compares the largest s + p + r of the site" (N14), "0 if none": from there on none
/// of the charges is active.
pub fn last_clear(charges: &[Charge]) -> u64 {
    charges.iter().map(Charge::clear).max().unwrap_or(0)
}
