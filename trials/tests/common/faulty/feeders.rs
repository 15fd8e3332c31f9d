//! Sites of several feeders, with an error in what is the feeder's and what is the site's.

use super::{Error, Faulty};
use trials::reference::minutes::site_counts;
use trials::reference::{last_clear, last_end, of_feeder, Charge, List, Station};
use trials::yard::{Moved, Opening, Planned, Refusal, Settings, Yard};

impl Faulty {
    /// The opening, with an error in the order of its refusals, in which settings are read, or in
    /// what is left beside a refusal.
    pub fn opened_site(&mut self, opening: &Opening) -> Result<Vec<u32>, Refusal> {
        let answer = self.opened_late(opening);
        let Opening { count, site_limit, feeders } = opening;
        let wide = !(1..=720).contains(site_limit);
        let alone = |feeder: &Settings| {
            let one = Opening { count: 1, site_limit: 720, feeders: vec![*feeder] };
            self.station.clone().open(&one).err()
        };
        match (self.error, &answer) {
            (Error::SiteLimitFirst, Err(1 | 2 | 3 | 19)) if wide => Err(28),
            (Error::FeederByFeeder, Err(1 | 2 | 3 | 19)) => {
                let first = opening.up_to_count().find_map(|feeder| alone(&feeder));
                Err(first.unwrap_or(28))
            }
            (Error::CountLast, Err(27)) => Err(feeders.iter().find_map(alone).unwrap_or(27)),
            (Error::SettingsPastTheCountRead, Ok(_)) => {
                match feeders.iter().skip(*count as usize).find_map(alone) {
                    None => answer,
                    Some(refusal) => {
                        self.station = Station::fresh(1, 100, 0);
                        Err(refusal)
                    }
                }
            }
            (Error::SiteLimitOfARefusedOpening, Err(_)) => {
                self.station.site_limit = (*site_limit).clamp(1, 720).into();
                answer
            }
            _ => answer,
        }
    }

    /// The feeder that a call is for: one that there is not becomes a neighbour, if that is the
    /// error.
    pub fn taken_for(&self, feeder: u32) -> u32 {
        let count = self.station.feeders.len() as u32;
        match self.error {
            Error::FeederZeroTaken if feeder == 0 => 1,
            Error::FeederPastTheCountTaken if feeder == count + 1 => count,
            _ => feeder,
        }
    }

    /// 29 where something else is refused before it, if that is the error.
    pub fn feeder_last(&self, feeder: u32, other: Refusal, right: bool) -> Result<(), Refusal> {
        let missing = self.station.feeder(feeder).is_none();
        match missing && !right && self.error == Error::FeederLast {
            true => Err(other),
            false => Ok(()),
        }
    }

    /// Whether a list is not as long as there are waiting charges.
    pub fn list_refused(&self, feeder: u32, length: usize) -> bool {
        let clock = self.station.clock;
        let waiting = self.station.charges.iter().filter(|charge| !charge.begun(clock));
        match self.error {
            // A list of which the feeder's charges take a part would be no list.
            Error::WaitingOfTheSite => {
                length != waiting.count() || length != self.station.waiting(feeder).len()
            }
            _ => length != self.station.waiting(feeder).len(),
        }
    }

    /// The move, with an error in how many places it asks for or in the order of the report.
    pub fn moved_site(&mut self, target: u32, report: &mut [u32]) -> Result<Moved, Refusal> {
        let before = self.station.clone();
        let enough = 360 * before.feeders.len();
        if self.error == Error::PlacesForOneFeeder && (360..enough).contains(&report.len()) {
            let mut list = vec![u32::MAX; enough];
            let mut moved = self.station.move_clock(target, &mut list)?;
            moved.reported = moved.reported.min(report.len() / 2);
            let reported = 2 * moved.reported;
            report[..reported].copy_from_slice(&list[..reported]);
            return Ok(moved);
        }
        let moved = self.station.move_clock(target, report)?;
        if self.error == Error::ReportedByFeeder {
            let feeder = |pair: &[u32]| before.charge(pair[0]).map(|charge| charge.feeder);
            let mut pairs: Vec<Vec<u32>> =
                report[..2 * moved.reported].chunks(2).map(<[u32]>::to_vec).collect();
            pairs.sort_by_key(|pair| feeder(pair));
            report[..2 * moved.reported].copy_from_slice(&pairs.concat());
        }
        Ok(moved)
    }

    /// The site as a replan of the feeder sees it.
    pub fn seen(&self, feeder: u32) -> Faulty {
        let mut seen = self.clone();
        let clock = self.station.clock;
        match self.error {
            Error::SiteNotInReplans => seen.station.site_limit = 100_000,
            Error::OthersNotCounted => seen.station.charges = self.station.held(feeder),
            Error::OthersBegunOnly => {
                seen.station.charges.retain(|charge| charge.feeder == feeder || charge.begun(clock))
            }
            _ => (),
        }
        seen
    }

    /// How offers and replans end, with an error in cause 4, in cause 5 or in the lateness.
    pub fn ended_site(&mut self, feeder: u32, list: List, rounds: u32) -> Planned {
        match (&list, self.error) {
            (Ok(starts), Error::LastEndOfTheSite) => {
                return self.ended_by(feeder, starts, rounds, last_end);
            }
            (Ok(starts), Error::LastClearOfTheFeeder) => {
                let own = |charges: &[Charge]| last_clear(&of_feeder(charges, feeder));
                return self.ended_by(feeder, starts, rounds, own);
            }
            _ => (),
        }
        let site_limit = self.station.site_limit;
        let unseen = match (self.error, &list) {
            (Error::SiteNotInCause5, _) => true,
            (Error::SiteAtTheStartsInCause5, Ok(starts)) => {
                let site = self.station.with_starts(feeder, starts);
                starts.iter().all(|start| site_counts(&site, *start, 1)[0] <= site_limit)
            }
            _ => false,
        };
        if unseen {
            self.station.site_limit = 100_000;
        }
        let mut planned = self.station.end_with(feeder, list, rounds);
        self.station.site_limit = site_limit;
        if self.error == Error::LatenessOfTheSite {
            let others = self.station.charges.iter().filter(|charge| charge.feeder != feeder);
            let late: u64 = others.map(Charge::lateness).sum();
            planned.before += late;
            planned.after += late;
        }
        planned
    }

    /// Cause 4 by what the error compares.
    fn ended_by(
        &mut self,
        feeder: u32,
        starts: &[u64],
        rounds: u32,
        last: impl Fn(&[Charge]) -> u64,
    ) -> Planned {
        let station = &mut self.station;
        let plan = station.with_starts(feeder, starts);
        let cause = station.cause(feeder, starts);
        if plan.is_empty() {
            return station.keep(feeder, cause, rounds);
        }
        let (later, clear) = (last(&plan) > last(&station.charges), last_clear(&plan));
        if cause == 3 || later || clear > last_clear(&station.charges) + 10_000 {
            return station.keep(feeder, if cause == 3 { 3 } else { 4 }, rounds);
        }
        // A charge that draws nothing lets all the others reach as far as it does.
        let far = Charge { ticket: u32::MAX, feeder: u32::MAX, rate: 0, ..plan[0] };
        station.charges.push(far.starting_at(clear));
        let planned = station.take_or_keep(feeder, starts, rounds);
        station.charges.pop();
        planned
    }
}
