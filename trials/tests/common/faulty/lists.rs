//! Lists of starts from replans with an error in how they are made.

use super::{Error, Faulty};
use trials::reference::minutes::Rules;
use trials::reference::{in_ticket_order, latest_start_order, Charge, List};

const NO_START: u32 = 1;

/// Errors that lie inside the rounds of a replan by lines.
const OF_OWN_ROUNDS: [Error; 16] = [
    Error::LatestStartCutAtZero,
    Error::LatestStartUnsigned,
    Error::HigherTicketFirst,
    Error::CapsCountCharges,
    Error::PlacedChargeHidden,
    Error::WeightRounded,
    Error::NumbersShrink,
    Error::SlackNotCutOff,
    Error::LatestStartBeforeWeight,
    Error::ChargeChosenFirst,
    Error::OneWrongNumber,
    Error::TableOnePlaceTooFar,
    Error::TableTooLong,
    Error::TailNotInTheCaps,
    Error::SiteAtTheStartInReplans,
    Error::OwnRounds,
];

impl Faulty {
    pub fn latest_list(&self, feeder: u32) -> List {
        match self.error {
            Error::BegunTakenAsSound => self.list_by_own_minutes(feeder).ok_or(NO_START),
            Error::SiteAtTheStartInReplans => self.list_by_first_minutes(feeder).ok_or(NO_START),
            _ => {
                let mut waiting = self.station.waiting(feeder);
                waiting.sort_by_key(|charge| turn(self.error, charge));
                self.station.place_in_turn(feeder, &waiting).ok_or(NO_START)
            }
        }
    }

    pub fn lines_list(&self, feeder: u32, allowance: u32) -> (List, u32) {
        // Under a cap of D, or a W, there is no room for a rate that should have been refused.
        let Rules { bound, site, .. } = self.station.rules(feeder);
        let waiting = self.station.waiting(feeder);
        if waiting.iter().any(|charge| charge.weight() > bound.min(site)) {
            return (Err(NO_START), 1);
        }
        match OF_OWN_ROUNDS.contains(&self.error) {
            true => self.own_rounds(feeder, allowance),
            false => self.station.lines_list(feeder, allowance),
        }
    }

    /// The list of a replan by latest start that looks at a charge's own minutes.
    fn list_by_own_minutes(&self, feeder: u32) -> Option<Vec<u64>> {
        let (rules, clock) = (self.station.rules(feeder), self.station.clock);
        let (mut plan, mut placed) = (self.station.begun(feeder), Vec::new());
        for charge in latest_start_order(self.station.waiting(feeder)) {
            let start = self.first_start(&plan, charge, |plan, start| {
                let own = (start - clock) as usize..(start - clock + charge.active_time()) as usize;
                self.counts(plan)[own].iter().all(|counts| rules.sound_in(counts))
            })?;
            plan.push(charge.starting_at(start));
            placed.push(charge.starting_at(start));
        }
        Some(in_ticket_order(placed))
    }

    /// The list of a replan by latest start that tests W in the first minute of each charge.
    fn list_by_first_minutes(&self, feeder: u32) -> Option<Vec<u64>> {
        let (mut plan, mut placed) = (self.station.unmoved(feeder), Vec::new());
        for charge in latest_start_order(self.station.waiting(feeder)) {
            let start = self.start_by_its_first_minute(&plan, charge)?;
            plan.push(charge.starting_at(start));
            placed.push(charge.starting_at(start));
        }
        Some(in_ticket_order(placed))
    }
}

/// By d − p, then ticket, where the error is not about it.
pub fn turn(error: Error, charge: &Charge) -> (i64, i64) {
    let (latest_start, ticket) = (charge.latest_start(), i64::from(charge.ticket));
    match error {
        Error::LatestStartCutAtZero => (latest_start.max(0), ticket),
        Error::LatestStartUnsigned => (i64::from(latest_start as u32), ticket),
        Error::HigherTicketFirst if latest_start < 0 => (latest_start, -ticket),
        _ => (latest_start, ticket),
    }
}
