//! Previews and commits with an error in what is shown or taken.

use super::{Error, Faulty};
use trials::reference::{last_clear, Charge, Station};
use trials::yard::{Order, Refusal};

impl Faulty {
    pub fn previewed(&mut self, order: Order, charge: &Charge) -> u64 {
        let start = self.earliest(charge);
        self.shown = Some((order, start));
        match self.error {
            Error::PreviewTakesATicket => self.station.next_ticket += 1,
            Error::PreviewShowsTheLastEnd => {
                return last_clear(&self.station.charges).max(self.station.clock)
            }
            _ => (),
        }
        start
    }

    /// The start with which a commit is taken, or none.
    pub fn committed(&self, order: Order, charge: &Charge, shown: u64) -> Option<u64> {
        let earliest = self.earliest(charge);
        let taken = shown == earliest
            || match self.error {
                Error::GivesTheEarliestStart => return Some(earliest),
                Error::TakesAnySoundStart => self.sound_with(charge.starting_at(shown)),
                Error::TakesTheStartShownBefore => self.shown == Some((order, shown)),
                _ => false,
            };
        taken.then_some(shown)
    }

    /// As long as something is held, so that no plan gets too long to be counted.
    fn sound_with(&self, charge: Charge) -> bool {
        let Station { clock, charges: held, .. } = &self.station;
        if charge.start < *clock || charge.start > last_clear(held) {
            return false;
        }
        let plan = [held.as_slice(), &[charge]].concat();
        let rules = self.station.rules(charge.feeder);
        self.counts(&plan).iter().all(|counts| rules.sound_in(counts))
    }

    /// Refusal 16 before what the station holds is looked at, if that is the error.
    pub fn refuse_before(&self, order: Order, shown: u64) -> Result<(), Refusal> {
        if self.error != Error::StartBeforePlaces {
            return Ok(());
        }
        let empty = Station { charges: Vec::new(), next_ticket: 1, ..self.station.clone() };
        match shown == self.earliest(&empty.ordered(order)?) {
            true => Ok(()),
            false => Err(16),
        }
    }
}
