//! "The **count** of a line in a minute is the number of its active charges"; "a charge
//! of rate 2 counts as two wherever a line is counted" (N4). "A plan is **sound** when
//! in every minute from the clock on each count is at most N and each two counts differ
//! by at most D." With N14 this is about the charges of a feeder, and the site has "a site
//! limit W on the weighted count of all lines in a minute".
//!
//! Counts stand in an array with one place for each minute, the clock's minute
//! first: minutes themselves can be near 100,000,000.

use super::station::Charge;
use std::collections::BTreeSet;

/// The counts of lines 1, 2 and 3 in one minute.
pub type Counts = [u64; 3];

/// The limit N and the bound D of a feeder, and the site limit W.
#[derive(Clone, Copy, Debug)]
pub struct Rules {
    pub limit: u64,
    pub bound: u64,
    pub site: u64,
}

impl Rules {
    /// "each count is at most N"
    pub fn within_limit(&self, counts: &Counts) -> bool {
        counts.iter().all(|count| *count <= self.limit)
    }

    /// "each two counts differ by at most D": all pairs, 1 and 3 too.
    pub fn balanced(&self, counts: &Counts) -> bool {
        counts.iter().all(|one| counts.iter().all(|other| one.abs_diff(*other) <= self.bound))
    }

    pub fn sound_in(&self, counts: &Counts) -> bool {
        self.within_limit(counts) && self.balanced(counts)
    }

    /// Whether the plan of a feeder is sound: "in every minute from the clock on".
    pub fn sound(&self, plan: &[Charge], clock: u64) -> bool {
        let in_minute = |minute| self.sound_in(&counts(plan, minute, 1)[0]);
        minutes_of_change(plan, clock).into_iter().all(in_minute)
    }

    /// Whether the site is within W in every minute from the clock on, with all its charges.
    pub fn site_within(&self, site: &[Charge], clock: u64) -> bool {
        let in_minute = |minute| site_counts(site, minute, 1)[0] <= self.site;
        minutes_of_change(site, clock).into_iter().all(in_minute)
    }

    /// Whether these charges by themselves leave nothing of W in some minute from the clock on.
    pub fn site_full(&self, charges: &[Charge], clock: u64) -> bool {
        let in_minute = |minute| site_counts(charges, minute, 1)[0] >= self.site;
        minutes_of_change(charges, clock).into_iter().any(in_minute)
    }
}

/// Counts change where a charge begins or ends to draw and nowhere else, so these minutes, not
/// below the clock, stand for all; the others may be a hundred million.
fn minutes_of_change(charges: &[Charge], clock: u64) -> BTreeSet<u64> {
    let changes = charges.iter().flat_map(|charge| [charge.start, charge.clear()]);
    changes.map(|minute| minute.max(clock)).collect()
}

/// Counts in the minutes from `from` on, as many as asked for.
pub fn counts(charges: &[Charge], from: u64, minutes: u64) -> Vec<Counts> {
    let mut counts = vec![[0; 3]; minutes as usize];
    for charge in charges {
        count_charge(&mut counts, charge, from);
    }
    counts
}

/// "the weighted count of all lines in a minute" (N14), of all feeders
pub fn site_counts(charges: &[Charge], from: u64, minutes: u64) -> Vec<u64> {
    counts(charges, from, minutes).iter().map(|lines| lines.iter().sum()).collect()
}

/// Counts one more charge in each of its active minutes that the array has.
pub fn count_charge(counts: &mut [Counts], charge: &Charge, from: u64) {
    let line = charge.line as usize - 1;
    let until = charge.clear().min(from + counts.len() as u64);
    for minute in charge.start.max(from)..until {
        counts[(minute - from) as usize][line] += charge.weight();
    }
}
