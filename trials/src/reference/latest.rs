//! "Keep the begun charges. Take the waiting ones by d − p, then ticket. Give
//! each the smallest start, not below the clock, after which the begun charges
//! and those placed so far, itself included, are sound in every minute from the
//! clock on. If one has no such start: cause 1." "A replan touches one feeder and places no
//! charge where the site would pass W, counting other feeders' charges, all begun ones and
//! those placed so far" (N14).

use super::judge::{List, NO_START};
use super::search::smallest_start;
use super::station::{Charge, Station};

/// "by d − p, then ticket"
pub fn latest_start_order(mut waiting: Vec<Charge>) -> Vec<Charge> {
    waiting.sort_by_key(|charge| (charge.latest_start(), charge.ticket));
    waiting
}

/// The starts of placed charges as an offer lists them: "in ticket order".
pub fn in_ticket_order(mut placed: Vec<Charge>) -> Vec<u64> {
    placed.sort_by_key(|charge| charge.ticket);
    placed.iter().map(|charge| charge.start).collect()
}

impl Station {
    pub fn latest_list(&self, feeder: u32) -> List {
        self.place_in_turn(feeder, &latest_start_order(self.waiting(feeder))).ok_or(NO_START)
    }

    /// Starts, in ticket order, when the feeder's waiting charges are placed in this turn.
    pub fn place_in_turn(&self, feeder: u32, waiting: &[Charge]) -> Option<Vec<u64>> {
        let mut plan = self.unmoved(feeder);
        let mut placed = Vec::new();
        for charge in waiting {
            let start = smallest_start(&plan, charge, self.clock, self.rules(feeder))?;
            plan.push(charge.starting_at(start));
            placed.push(charge.starting_at(start));
        }
        Some(in_ticket_order(placed))
    }
}
