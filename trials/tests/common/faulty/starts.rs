//! Starts of orders with an error in their search.

use super::rounds::at_rate_one;
use super::{Error, Faulty};
use trials::reference::minutes::{counts, site_counts, Counts, Rules};
use trials::reference::search::{smallest_start, test};
use trials::reference::{last_clear, of_feeder, Charge, Station};

impl Faulty {
    /// The first start with which the plan passes a test, which is told the start too.
    pub fn first_start(
        &self,
        plan: &[Charge],
        charge: Charge,
        passes: impl Fn(&[Charge], u64) -> bool,
    ) -> Option<u64> {
        let clock = self.station.clock;
        let last = last_clear(plan).max(clock);
        (clock..=last).find(|start| {
            let with_it = [plan, &[charge.starting_at(*start)]].concat();
            passes(&with_it, *start)
        })
    }

    /// The counts of a plan from the clock on.
    pub fn counts(&self, plan: &[Charge]) -> Vec<Counts> {
        let clock = self.station.clock;
        counts(plan, clock, last_clear(plan).max(clock) - clock)
    }

    /// The earliest start of an order. A plan that an error has made unsound may leave
    /// none; then it is the clock.
    pub fn earliest(&self, charge: &Charge) -> u64 {
        let Station { clock, charges: held, .. } = &self.station;
        let rules = self.station.rules(charge.feeder);
        let within = |plan: &[Charge]| self.all(plan, |counts| rules.within_limit(counts));
        let balanced = |plan: &[Charge]| self.all(plan, |counts| rules.balanced(counts));
        let start = match self.error {
            Error::QueuesBehindTheLastEnd => Some(last_clear(held).max(*clock)),
            Error::OneStartForEverybody => Some(1_000),
            Error::WaitingIgnored => {
                let begun = self.station.begun(charge.feeder);
                smallest_start(&begun, charge, *clock, rules)
            }
            Error::SiteNotInOrders => {
                let rules = Rules { site: u64::MAX, ..rules };
                smallest_start(held, charge, *clock, rules)
            }
            Error::OthersNotInOrders => {
                let own = self.station.held(charge.feeder);
                smallest_start(&own, charge, *clock, rules)
            }
            Error::OthersBegunOnlyInOrders => {
                let mut seen = held.clone();
                seen.retain(|held| held.feeder == charge.feeder || held.begun(*clock));
                smallest_start(&seen, charge, *clock, rules)
            }
            Error::SiteAtTheStartOfOrders => self.start_by_its_first_minute(held, *charge),
            Error::CountedInTheMinuteOfTheEnd => {
                let held: Vec<Charge> = held.iter().copied().map(with_its_end).collect();
                smallest_start(&held, &with_its_end(*charge), *clock, rules)
            }
            Error::BalanceOnlyAtTheStart => self.first_start(held, *charge, |plan, start| {
                within(plan) && rules.balanced(&self.counts(plan)[(start - clock) as usize])
            }),
            Error::NeighbouringLinesOnly => self.first_start(held, *charge, |plan, _| {
                within(plan) && self.all(plan, |counts| neighbours_balanced(counts, rules))
            }),
            Error::RateNotInTheBalance => self.first_start(held, *charge, |plan, _| {
                let plain: Vec<Charge> = plan.iter().copied().map(at_rate_one).collect();
                within(plan) && balanced(&plain)
            }),
            Error::SecondHalfOnTheNextLine => self.first_start(held, *charge, |plan, _| {
                let halves: Vec<Charge> = plan.iter().flat_map(|charge| halves(*charge)).collect();
                within(&halves) && balanced(&halves)
            }),
            Error::TailNotInTheBalance => self.first_start(held, *charge, |plan, _| {
                let short: Vec<Charge> = plan.iter().copied().map(without_tail).collect();
                within(plan) && balanced(&short)
            }),
            Error::StartAndLastMinuteOnly => self.first_start(held, *charge, |plan, start| {
                let counts = self.counts(plan);
                let first = (start - clock) as usize;
                [first, first + charge.active_time() as usize - 1]
                    .map(|minute| counts[minute])
                    .iter()
                    .all(|counts| rules.sound_in(counts))
            }),
            Error::CandidateSkipped => Some(self.by_candidates(charge)),
            Error::WindowNotWidened => {
                let near = |held: &&Charge| held.start < clock + charge.active_time();
                let near: Vec<Charge> = held.iter().filter(near).copied().collect();
                self.first_start(&near, *charge, |plan, start| {
                    let own = start - clock..start - clock + charge.active_time();
                    let counts = self.counts(plan);
                    own.into_iter().all(|minute| rules.sound_in(&counts[minute as usize]))
                })
            }
            _ => smallest_start(&self.drawing(), charge, *clock, rules),
        };
        start.unwrap_or(*clock)
    }

    /// The first start with which the feeder is sound in every minute, and the site within W in
    /// the charge's first one.
    pub fn start_by_its_first_minute(&self, plan: &[Charge], charge: Charge) -> Option<u64> {
        let rules = self.station.rules(charge.feeder);
        self.first_start(plan, charge, |plan, start| {
            self.all(&of_feeder(plan, charge.feeder), |counts| rules.sound_in(counts))
                && site_counts(plan, start, 1)[0] <= rules.site
        })
    }

    /// From each failing minute to the one after the next.
    fn by_candidates(&self, charge: &Charge) -> u64 {
        let Station { clock, charges: held, .. } = &self.station;
        let mut start = *clock;
        loop {
            let rules = self.station.rules(charge.feeder);
            let tested = test(held, &charge.starting_at(start), rules);
            if tested.fits {
                return start;
            }
            start += tested.looked + 1;
        }
    }

    fn all(&self, plan: &[Charge], passes: impl Fn(&Counts) -> bool) -> bool {
        self.counts(plan).iter().all(passes)
    }
}

fn with_its_end(mut charge: Charge) -> Charge {
    charge.tail += 1;
    charge
}

pub fn without_tail(mut charge: Charge) -> Charge {
    charge.tail = 0;
    charge
}

/// Each point of the rate on a line of its own.
fn halves(charge: Charge) -> Vec<Charge> {
    let on = |point: u32| Charge { line: (charge.line - 1 + point) % 3 + 1, ..at_rate_one(charge) };
    (0..charge.rate).map(on).collect()
}

fn neighbours_balanced(counts: &Counts, rules: Rules) -> bool {
    counts.windows(2).all(|pair| pair[0].abs_diff(pair[1]) <= rules.bound)
}
