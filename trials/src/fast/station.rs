//! The station and its calls. Like the proved station it holds its charges and no
//! profile: each call that looks at minutes makes the profile anew. A station that
//! kept it from call to call would save that; docs/BENCHMARKS.md says how much.

use super::profile::{Load, Profile, Rules, Wanted, SITE};
use super::search::earliest;
use crate::yard::{Committed, Found, Moved, Opening, Order, Planned, Refusal, Settings, Yard};
use crate::yard::{MOST_FEEDERS, NOT_HELD};

pub const PLACES: usize = 180;
pub const WIDEST_SITE: u32 = 720;
pub const LAST_TICKET: u32 = 65_535;
pub const LAST_CLOCK: u32 = 1_000_000;
const MOST_ASKED: usize = 180;

#[derive(Clone, Copy)]
pub struct Charge {
    pub ticket: u32,
    pub line: usize,
    pub order: u32,
    pub time: u32,
    pub due: u32,
    pub rate: u16,
    pub start: u32,
}

impl Charge {
    pub fn end(&self) -> u32 {
        self.start + self.time
    }

    /// What it draws, with the station's tail.
    pub fn load(&self, tail: u32) -> Load {
        Load { line: self.line, rate: self.rate, from: self.start, until: self.end() + tail }
    }

    /// The key of latest-start order, which may be negative; charges lie in ticket
    /// order already. Both numbers are far below 2^31.
    pub fn latest_start(&self) -> i32 {
        self.due as i32 - self.time as i32
    }
}

impl Load {
    /// As a feeder sees it: a load of another one counts for the site alone.
    pub fn seen_from(self, own: bool) -> Load {
        match own {
            true => self,
            false => Load { line: SITE, ..self },
        }
    }
}

/// c × N / 100 rounded to the nearest whole number, an exact half to the even one.
pub fn bound(limit: u32, percent: u32) -> u32 {
    let (whole, rest) = (limit * percent / 100, limit * percent % 100);
    let up = rest > 50 || (rest == 50 && whole % 2 == 1);
    whole + u32::from(up)
}

/// A feeder with its charges in ticket order; the site limit stands beside its own.
pub struct Feeder {
    pub rules: Rules,
    pub percent: u32,
    /// r: contactors open so many minutes late.
    pub tail: u32,
    pub charges: Vec<Charge>,
}

impl Feeder {
    pub fn new(limit: u32, percent: u32, tail: u32, site: u32) -> Feeder {
        let (limit, bound) = (limit as u16, bound(limit, percent) as u16);
        let rules = Rules { limit, bound, site: site as u16 };
        Feeder { rules, percent, tail, charges: Vec::with_capacity(PLACES) }
    }

    /// The waiting charges in ticket order.
    pub fn waiting(&self, clock: u32) -> impl Iterator<Item = &Charge> {
        self.charges.iter().filter(move |charge| charge.start >= clock)
    }

    pub fn begun(&self, clock: u32) -> impl Iterator<Item = &Charge> {
        self.charges.iter().filter(move |charge| charge.start < clock)
    }

    fn place_of(&self, ticket: u32) -> Option<usize> {
        self.charges.binary_search_by_key(&ticket, |charge| charge.ticket).ok()
    }
}

pub struct Station {
    pub clock: u32,
    pub next_ticket: u32,
    pub feeders: Vec<Feeder>,
}

impl Station {
    /// One feeder under a site limit of 720.
    pub fn fresh(limit: u32, percent: u32, tail: u32) -> Station {
        Station::of(vec![Feeder::new(limit, percent, tail, WIDEST_SITE)])
    }

    fn of(feeders: Vec<Feeder>) -> Station {
        Station { clock: 0, next_ticket: 1, feeders }
    }

    /// The place of the feeder with this number.
    fn named(&self, feeder: u32) -> Result<usize, Refusal> {
        match (feeder as usize).checked_sub(1) {
            Some(place) if place < self.feeders.len() => Ok(place),
            _ => Err(29),
        }
    }

    fn check_order(&self, feeder: &Feeder, order: Order) -> Result<(), Refusal> {
        let Order { line, time, due, rate, .. } = order;
        if !(1..=3).contains(&line) {
            return Err(4);
        }
        if !(1..=1_440).contains(&time) {
            return Err(5);
        }
        if rate != 1 && rate != 2 {
            return Err(17);
        }
        let Rules { limit, bound, site } = feeder.rules;
        if rate > u32::from(limit.min(bound).min(site)) {
            return Err(18);
        }
        if due > 2_000_000 {
            return Err(6);
        }
        if feeder.charges.len() == PLACES {
            return Err(13);
        }
        if self.next_ticket > LAST_TICKET {
            return Err(14);
        }
        Ok(())
    }

    /// One search serves preview and commit: the place of the feeder, and the start.
    fn earliest(&self, order: Order) -> Result<(usize, u32), Refusal> {
        let place = self.named(order.feeder)?;
        let feeder = &self.feeders[place];
        self.check_order(feeder, order)?;
        let (line, rate) = (order.line as usize - 1, order.rate as u16);
        let wanted = Wanted { line, rate, time: order.time + feeder.tail };
        Ok((place, earliest(self, place, wanted)))
    }

    /// The profile of some of the feeder's charges, with all of the others for the site.
    pub fn profile<'a>(&self, place: usize, charges: impl Iterator<Item = &'a Charge>) -> Profile {
        let tail = self.feeders[place].tail;
        let mut profile = Profile::of(charges.map(|charge| charge.load(tail)), self.clock);
        for (other, feeder) in self.feeders.iter().enumerate() {
            if other != place {
                self.add_others(&mut profile, feeder);
            }
        }
        profile
    }

    fn add_others(&self, profile: &mut Profile, feeder: &Feeder) {
        for charge in &feeder.charges {
            let load = charge.load(feeder.tail).seen_from(false);
            profile.add(Load { from: load.from.max(self.clock), ..load });
        }
    }

    /// The places of the feeder and of the charge in it.
    fn place_of(&self, ticket: u32) -> Result<(usize, usize), Refusal> {
        let places = self.feeders.iter().enumerate();
        let mut found =
            places.filter_map(|(place, feeder)| Some((place, feeder.place_of(ticket)?)));
        found.next().ok_or(15)
    }

    /// The refusals of an opening in their order, each over all feeders.
    fn check_opening(opening: &Opening) -> Result<(), Refusal> {
        if !(1..=MOST_FEEDERS as u32).contains(&opening.count) {
            return Err(27);
        }
        let any = |meets: fn(Settings) -> bool| opening.up_to_count().any(meets);
        if any(|feeder| !(1..=60).contains(&feeder.limit)) {
            return Err(1);
        }
        if any(|feeder| feeder.percent > 100) {
            return Err(2);
        }
        if any(|feeder| bound(feeder.limit, feeder.percent) == 0) {
            return Err(3);
        }
        if any(|feeder| feeder.tail > 5) {
            return Err(19);
        }
        if !(1..=WIDEST_SITE).contains(&opening.site_limit) {
            return Err(28);
        }
        Ok(())
    }
}

impl Yard for Station {
    fn open(&mut self, opening: &Opening) -> Result<Vec<u32>, Refusal> {
        if let Err(refusal) = Station::check_opening(opening) {
            *self = Station::fresh(1, 100, 0);
            return Err(refusal);
        }
        let feeder = |feeder: Settings| {
            Feeder::new(feeder.limit, feeder.percent, feeder.tail, opening.site_limit)
        };
        *self = Station::of(opening.up_to_count().map(feeder).collect());
        Ok(self.feeders.iter().map(|feeder| u32::from(feeder.rules.bound)).collect())
    }

    fn preview(&mut self, order: Order) -> Result<u64, Refusal> {
        Ok(u64::from(self.earliest(order)?.1))
    }

    fn commit(&mut self, order: Order, shown: u32) -> Result<Committed, Refusal> {
        let (place, start) = self.earliest(order)?;
        if shown != start {
            return Err(16);
        }
        let (ticket, line, rate) = (self.next_ticket, order.line as usize - 1, order.rate as u16);
        let Order { time, due, .. } = order;
        let order = self.clock;
        let charge = Charge { ticket, line, order, time, due, rate, start };
        self.feeders[place].charges.push(charge);
        self.next_ticket += 1;
        Ok(Committed { ticket, start: u64::from(start) })
    }

    fn move_clock(&mut self, target: u32, report: &mut [u32]) -> Result<Moved, Refusal> {
        if target > LAST_CLOCK {
            return Err(8);
        }
        if report.len() < 2 * PLACES * self.feeders.len() {
            return Err(9);
        }
        if target < self.clock {
            return Err(12);
        }
        let waiting = self.feeders.iter().flat_map(|feeder| feeder.waiting(self.clock));
        let mut passed: Vec<(u32, u32)> = waiting
            .filter(|charge| charge.start < target)
            .map(|charge| (charge.start, charge.ticket))
            .collect();
        passed.sort_unstable();
        for (pair, (start, ticket)) in report.chunks_exact_mut(2).zip(&passed) {
            pair[0] = *ticket;
            pair[1] = *start;
        }
        let mut dropped = 0;
        for feeder in &mut self.feeders {
            let (held, tail) = (feeder.charges.len(), feeder.tail);
            feeder.charges.retain(|charge| charge.end() + tail > target);
            dropped += held - feeder.charges.len();
        }
        self.clock = target;
        Ok(Moved { reported: passed.len(), dropped })
    }

    fn offer(&mut self, feeder: u32, starts: &[u32]) -> Result<Planned, Refusal> {
        let place = self.named(feeder)?;
        if starts.len() != self.feeders[place].waiting(self.clock).count() {
            return Err(10);
        }
        Ok(self.take_or_keep(place, starts, 0))
    }

    fn replan_by_latest_start(&mut self, feeder: u32) -> Result<Planned, Refusal> {
        let place = self.named(feeder)?;
        Ok(self.by_latest_start(place))
    }

    fn replan_by_lines(&mut self, feeder: u32, allowance: u32) -> Result<Planned, Refusal> {
        let place = self.named(feeder)?;
        if !(1..=1_000).contains(&allowance) {
            return Err(11);
        }
        Ok(self.by_lines(place, allowance))
    }

    fn enquire(&self, ticket: u32) -> Result<Found, Refusal> {
        let (feeder, place) = self.place_of(ticket)?;
        let charge = &self.feeders[feeder].charges[place];
        let (start, rate) = (u64::from(charge.start), u32::from(charge.rate));
        Ok(if charge.start >= self.clock {
            Found::Waiting { start, rate }
        } else {
            Found::Charging { start, end: u64::from(charge.end()), rate }
        })
    }

    /// A merge with each feeder: both lists rise, so the walk over the charges goes on from
    /// ticket to ticket. At the end it has passed those up to the last one asked.
    fn board(&self, tickets: &[u32], starts: &mut [u32]) -> Result<usize, Refusal> {
        if tickets.len() > MOST_ASKED || tickets.windows(2).any(|two| two[0] >= two[1]) {
            return Err(23);
        }
        if starts.len() < tickets.len() {
            return Err(24);
        }
        let mut looked = 0;
        starts[..tickets.len()].fill(NOT_HELD);
        for Feeder { charges, .. } in &self.feeders {
            let mut walked = 0;
            for (start, ticket) in starts.iter_mut().zip(tickets) {
                while let Some(charge) = charges.get(walked).filter(|one| one.ticket <= *ticket) {
                    walked += 1;
                    if charge.ticket == *ticket {
                        *start = charge.start;
                    }
                }
            }
            looked += walked;
        }
        Ok(looked)
    }

    /// What is taken away leaves the site within its limit, so the others need no look.
    fn withdraw(&mut self, ticket: u32) -> Result<(), Refusal> {
        let (feeder, place) = self.place_of(ticket)?;
        let Feeder { charges, tail, rules, .. } = &mut self.feeders[feeder];
        if charges[place].start < self.clock {
            return Err(25);
        }
        let rest = charges[..place].iter().chain(&charges[place + 1..]);
        let profile = Profile::of(rest.map(|charge| charge.load(*tail)), self.clock);
        if !profile.is_sound(*rules) {
            return Err(26);
        }
        charges.remove(place);
        Ok(())
    }
}
