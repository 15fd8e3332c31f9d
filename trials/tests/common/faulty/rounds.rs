//! Replans by lines whose rounds are made here, because the error lies inside them.
//! `Error::OwnRounds` is none: with it they are the reference's.

use super::starts::without_tail;
use super::{Error, Faulty};
use trials::reference::minutes::{count_charge, counts, site_counts, Counts};
use trials::reference::{in_ticket_order, last_clear, Charge, List};

const NO_START: u32 = 1;
const ALLOWANCE_SPENT: u32 = 2;

impl Faulty {
    pub fn own_rounds(&self, feeder: u32, allowance: u32) -> (List, u32) {
        let (station, rules) = (&self.station, self.station.rules(feeder));
        let (clock, begun, waiting) =
            (station.clock, station.begun(feeder), station.waiting(feeder));
        let times: u64 = waiting.iter().map(Charge::active_time).sum();
        let length = last_clear(&station.unmoved(feeder)).max(clock) - clock + times;
        let mut caps = vec![[rules.limit; 3]; length as usize];
        for rounds in 1..allowance + 1 {
            let placed = self.placed(feeder, &waiting, &caps);
            let counts = counts(&[begun.clone(), placed.clone()].concat(), clock, length);
            let unbalanced = |counts: &Counts| !rules.balanced(counts);
            let Some(minute) = counts.iter().position(unbalanced) else {
                return (Ok(in_ticket_order(placed)), rounds);
            };
            let [most, least] = extremes(&counts[minute]);
            if !self.placed_there(&begun, &placed, most, clock + minute as u64) {
                return (Err(NO_START), rounds);
            }
            let cap = counts[minute][least] + rules.bound;
            caps[minute..].iter_mut().for_each(|caps| caps[most] = caps[most].min(cap));
        }
        (Err(ALLOWANCE_SPENT), allowance)
    }

    /// The waiting charges with the starts that the caps give them, line after line.
    fn placed(&self, feeder: u32, waiting: &[Charge], caps: &[Counts]) -> Vec<Charge> {
        let own = |line| waiting.iter().copied().filter(move |charge| charge.line == line);
        let mut placed = Vec::new();
        for line in 1..=3 {
            let more = self.line_placed(feeder, &placed, own(line).collect(), caps);
            placed.extend(more);
        }
        placed
    }

    /// Those of one line, beside those of the lines before it. The smallest start never falls, so
    /// it is looked for from the last one on.
    fn line_placed(
        &self,
        feeder: u32,
        before: &[Charge],
        own: Vec<Charge>,
        caps: &[Counts],
    ) -> Vec<Charge> {
        let (clock, length) = (self.station.clock, caps.len() as u64);
        let mut counts = counts(&self.as_capped(&self.station.begun(feeder)), clock, length);
        let others = [self.station.unmoved(feeder).as_slice(), before].concat();
        let mut site = site_counts(&others, clock, length);
        let (mut unplaced, mut placed, mut start) = (own.clone(), Vec::new(), clock);
        while !unplaced.is_empty() {
            let fits = |charge: &Charge, start: u64| {
                let full = charge.weight();
                let charge = self.capped(*charge);
                let (line, weight) = (charge.line as usize - 1, charge.weight());
                let mut minutes = start - clock..start - clock + charge.active_time();
                let unseen = |minute: u64| {
                    self.error == Error::SiteAtTheStartInReplans && minute > start - clock
                };
                minutes.all(|minute| {
                    let in_all = site[minute as usize] + full;
                    counts[minute as usize][line] + weight <= caps[minute as usize][line]
                        && (in_all <= self.station.site_limit || unseen(minute))
                })
            };
            let any_fits = |start: &u64| unplaced.iter().any(|charge| fits(charge, *start));
            start = (start..).find(any_fits).expect("there is room after all others");
            let mut chosen = self.chosen(&own, &unplaced, start, |charge| fits(charge, start));
            chosen.start = match self.error {
                Error::ChargeChosenFirst => {
                    let own_start = (clock..).find(|start| fits(&chosen, *start));
                    own_start.expect("there is room after all others")
                }
                _ => start,
            };
            unplaced.retain(|charge| charge.ticket != chosen.ticket);
            count_charge(&mut counts, &self.capped(chosen), clock);
            let drawn = chosen.start - clock..chosen.clear() - clock;
            drawn.for_each(|minute| site[minute as usize] += chosen.weight());
            placed.push(chosen);
        }
        placed
    }

    /// The charges as the caps count them.
    fn as_capped(&self, plan: &[Charge]) -> Vec<Charge> {
        plan.iter().map(|charge| self.capped(*charge)).collect()
    }

    fn capped(&self, charge: Charge) -> Charge {
        match self.error {
            Error::CapsCountCharges => at_rate_one(charge),
            Error::TailNotInTheCaps => without_tail(charge),
            _ => charge,
        }
    }

    /// Whether a placed charge of the line is active in the minute, or whether there are
    /// not just as many active charges as the begun ones count for, if that is the error.
    fn placed_there(&self, begun: &[Charge], placed: &[Charge], place: usize, minute: u64) -> bool {
        let active =
            |charge: &&Charge| charge.line as usize == place + 1 && charge.active_in(minute);
        if self.error != Error::PlacedChargeHidden {
            return placed.iter().any(|charge| active(&charge));
        }
        let charges = begun.iter().chain(placed).filter(active).count() as u64;
        charges != begun.iter().filter(active).map(Charge::weight).sum::<u64>()
    }
}

pub fn at_rate_one(mut charge: Charge) -> Charge {
    charge.rate = 1;
    charge
}

/// The places of the largest and the smallest count, the lowest line first.
fn extremes(counts: &Counts) -> [usize; 2] {
    let first = |count: Option<&u64>| counts.iter().position(|other| Some(other) == count);
    [counts.iter().max(), counts.iter().min()].map(|count| first(count).unwrap_or(0))
}
