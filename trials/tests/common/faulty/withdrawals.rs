//! Withdrawals with an error in what is refused, or in what is left behind.

use super::{Error, Faulty};
use trials::reference::{of_feeder, Charge, Station};
use trials::yard::Refusal;

impl Faulty {
    pub fn withdrawn(&mut self, ticket: u32) -> Result<(), Refusal> {
        let charge = *self.station.charge(ticket).ok_or(15u32)?;
        let mut rest = self.station.charges.clone();
        rest.retain(|charge| charge.ticket != ticket);
        let begun = charge.begun(self.station.clock);
        match (begun, self.unsound(&rest, charge.feeder)) {
            (true, true) if self.error == Error::SoundnessBeforeBegun => return Err(26),
            (true, _) if self.error != Error::BegunWithdrawn => return Err(25),
            (_, true) => return Err(26),
            _ => (),
        }
        self.station.charges = rest;
        self.left_behind(charge);
        Ok(())
    }

    fn unsound(&self, rest: &[Charge], feeder: u32) -> bool {
        let (rules, own) = (self.station.rules(feeder), of_feeder(rest, feeder));
        match self.error {
            Error::OnlyTheLimitTested => {
                !self.counts(&own).iter().all(|counts| rules.within_limit(counts))
            }
            Error::RestOfTheSite => !rules.sound(rest, self.station.clock),
            _ => !rules.sound(&own, self.station.clock),
        }
    }

    fn left_behind(&mut self, charge: Charge) {
        match self.error {
            Error::OthersReplanned => self.move_up(charge.feeder),
            Error::TicketGivenAgain if charge.ticket + 1 == self.station.next_ticket => {
                self.station.next_ticket -= 1;
            }
            Error::WithdrawnStillDraws | Error::PlaceNotFreed => self.gone.push(charge),
            _ => (),
        }
    }

    /// The others get the smallest starts that there are now, in the order of their tickets.
    fn move_up(&mut self, feeder: u32) {
        let waiting = self.station.waiting(feeder);
        if let Some(starts) = self.station.place_in_turn(feeder, &waiting) {
            self.station.charges = self.station.with_starts(feeder, &starts);
        }
    }

    /// What the search for a start counts: the held charges, and those that still draw
    /// though they were withdrawn, if that is the error.
    pub fn drawing(&self) -> Vec<Charge> {
        let mut drawing = self.station.charges.clone();
        if self.error == Error::WithdrawnStillDraws {
            drawing.extend(&self.gone);
        }
        drawing
    }

    /// Whether places that were not freed leave no room for one more.
    pub fn places_gone(&self) -> bool {
        let Station { charges, .. } = &self.station;
        self.error == Error::PlaceNotFreed && charges.len() + self.gone.len() >= 180
    }
}
