//! "The start is the smallest s not below the clock with which the held plan and
//! this charge are sound together." "An order's start must keep its feeder sound and the site
//! within W" (N14).
//!
//! Starts are tried one after the other. For each one the unsound minutes of the
//! whole plan are counted: in the charge's own minutes those that are unsound
//! with it, in all others those that are unsound without it. Two running totals
//! give these numbers at once, so a long queue does not cost its square.
//!
//! A plan here is that of the whole site: the charges of the charge's own feeder are to be
//! sound, and all together within W in the charge's own minutes. In the others nothing is
//! added to what is held.

use super::minutes::{self, Counts, Rules};
use super::station::{last_clear, of_feeder, Charge};

/// The counts of the charge's feeder and of the site, without the charge, from a minute on.
struct Minutes {
    lines: Vec<Counts>,
    site: Vec<u64>,
}

impl Minutes {
    fn of(plan: &[Charge], charge: &Charge, from: u64, length: u64) -> Minutes {
        let lines = minutes::counts(&of_feeder(plan, charge.feeder), from, length);
        Minutes { lines, site: minutes::site_counts(plan, from, length) }
    }

    /// "keep its feeder sound and the site within W", in one minute with the charge.
    fn fits(&self, minute: usize, charge: &Charge, rules: Rules) -> bool {
        let mut counts = self.lines[minute];
        counts[charge.line as usize - 1] += charge.weight();
        rules.sound_in(&counts) && self.site[minute] + charge.weight() <= rules.site
    }
}

/// The smallest start of `charge` (its own start is not looked at), or none.
///
/// Where nothing of the plan is active any more the charge is alone, and no later start
/// changes the minutes before: that minute is the last start worth a trial.
pub fn smallest_start(plan: &[Charge], charge: &Charge, clock: u64, rules: Rules) -> Option<u64> {
    let last_trial = last_clear(plan).max(clock);
    let length = last_trial + charge.active_time() - clock;
    let minutes = Minutes::of(plan, charge, clock, length);
    let without = Totals::of(minutes.lines.iter().map(|counts| !rules.sound_in(counts)));
    let all = 0..length as usize;
    let with = Totals::of(all.map(|minute| !minutes.fits(minute, charge, rules)));
    (clock..=last_trial).find(|start| {
        let (from, until) = (start - clock, start - clock + charge.active_time());
        let own = with.between(from, until);
        let others = without.between(0, from) + without.between(until, length);
        own + others == 0
    })
}

/// What the test of one candidate start answers (N6).
#[derive(Clone, Copy, Debug, PartialEq, Eq)]
pub struct Tested {
    pub fits: bool,
    /// "how many minutes it looked at"
    pub looked: u64,
}

/// "The test of an order's candidate start, however it is done now, is to end at its first
/// failing minute. Beside its verdict it returns how many minutes it looked at": "from the
/// candidate start up to and including the first failing minute, or all the charge's active
/// minutes where none fails". A minute fails where the feeder's plan is not sound in it
/// together with the charge, or the site not within W (N14).
///
/// It looks at the charge's own minutes alone, so it is a test for orders, to which the
/// held plan is sound.
pub fn test(plan: &[Charge], candidate: &Charge, rules: Rules) -> Tested {
    for minute in candidate.start..candidate.clear() {
        if !Minutes::of(plan, candidate, minute, 1).fits(0, candidate, rules) {
            return Tested { fits: false, looked: minute - candidate.start + 1 };
        }
    }
    Tested { fits: true, looked: candidate.active_time() }
}

/// How many minutes in a span have a property.
struct Totals(Vec<u64>);

impl Totals {
    /// Place k holds the number among the first k minutes.
    fn of(minutes: impl Iterator<Item = bool>) -> Totals {
        let mut totals = vec![0];
        let mut total = 0;
        for has_it in minutes {
            total += u64::from(has_it);
            totals.push(total);
        }
        Totals(totals)
    }

    fn between(&self, from: u64, until: u64) -> u64 {
        self.0[until as usize] - self.0[from as usize]
    }
}

#[cfg(test)]
mod tests {
    use super::*;

    fn charge(line: u32, start: u64, time: u64, rate: u32) -> Charge {
        Charge { ticket: 1, feeder: 1, line, order: 0, time, due: 0, rate, start, tail: 0 }
    }

    const RULES: Rules = Rules { limit: 2, bound: 1, site: 720 };

    /// Line 2 has one charge in minutes 0 to 4 and line 1 one in 0 to 9: a second one of
    /// line 1 leaves line 3 two behind from the first minute on, and beside a charge of
    /// line 3 it is line 2's end that breaks the balance, in minute 5.
    #[test]
    fn up_to_and_including_the_first_failing_minute() {
        let mut plan = vec![charge(1, 0, 10, 1), charge(2, 0, 5, 1)];
        let tested = |plan: &[Charge], start| test(plan, &charge(1, start, 8, 1), RULES);
        assert_eq!(tested(&plan, 0), Tested { fits: false, looked: 1 });
        plan.push(charge(3, 0, 10, 1));
        assert_eq!(tested(&plan, 0), Tested { fits: false, looked: 6 });
        assert_eq!(tested(&plan, 3), Tested { fits: false, looked: 3 });
        assert_eq!(tested(&plan, 5), Tested { fits: false, looked: 1 });
    }

    /// A start above the clock is counted from the start, and the last minute may fail.
    #[test]
    fn the_last_minute_fails() {
        let plan = [charge(1, 107, 3, 1)];
        let tested = |time| test(&plan, &charge(1, 100, time, 1), RULES);
        assert_eq!(tested(7), Tested { fits: true, looked: 7 });
        assert_eq!(tested(8), Tested { fits: false, looked: 8 });
        assert_eq!(tested(1_440), Tested { fits: false, looked: 8 });
    }

    #[test]
    fn all_active_minutes_where_none_fails() {
        for (time, rate) in [(1, 1), (5, 1), (1_440, 1), (1, 2), (7, 2)] {
            let rules = Rules { bound: 2, ..RULES };
            let tested = test(&[charge(1, 0, 9, 1)], &charge(2, 3, time, rate), rules);
            assert_eq!(tested, Tested { fits: true, looked: time });
        }
        let tested = test(&[charge(2, 3, 9, 1)], &charge(2, 3, 7, 2), Rules { bound: 2, ..RULES });
        assert_eq!(tested, Tested { fits: false, looked: 1 });
    }

    /// N14: charges of another feeder count for W alone.
    #[test]
    fn other_feeders_count_for_the_site() {
        let other = |start, time| Charge { feeder: 2, ..charge(1, start, time, 2) };
        let plan = [other(0, 9), other(12, 9)];
        let tested = |start, site| test(&plan, &charge(1, start, 5, 1), Rules { site, ..RULES });
        assert_eq!(tested(0, 3), Tested { fits: true, looked: 5 });
        assert_eq!(tested(0, 2), Tested { fits: false, looked: 1 });
        assert_eq!(tested(9, 2), Tested { fits: false, looked: 4 });
        let start = |site| smallest_start(&plan, &charge(1, 0, 5, 1), 1, Rules { site, ..RULES });
        assert_eq!([start(2), start(3)], [Some(21), Some(1)]);
    }

    /// N7: the tail is among the active minutes, of the candidate and of the others.
    #[test]
    fn tails_are_looked_at() {
        let late = |charge: Charge| Charge { tail: 3, ..charge };
        let plan = [late(charge(1, 107, 3, 1))];
        let tested = |start, time| test(&plan, &late(charge(1, start, time, 1)), RULES);
        assert_eq!(tested(100, 4), Tested { fits: true, looked: 7 });
        assert_eq!(tested(100, 5), Tested { fits: false, looked: 8 });
        assert_eq!(tested(112, 5), Tested { fits: false, looked: 1 });
        assert_eq!(tested(113, 5), Tested { fits: true, looked: 8 });
    }
}
