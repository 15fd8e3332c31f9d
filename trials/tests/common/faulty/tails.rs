//! Contactors that open late, with an error in what the tail has a part in.

use super::{Error, Faulty};
use trials::reference::{of_feeder, Charge, List};
use trials::yard::{Found, Opening, Planned, Refusal};

impl Faulty {
    /// The opening, with an error in when it is refused or in what is left beside it.
    pub fn opened_late(&mut self, opening: &Opening) -> Result<Vec<u32>, Refusal> {
        let answer = self.opened(opening);
        let late = opening.up_to_count().take(4).any(|feeder| feeder.tail > 5);
        match (self.error, &answer) {
            (Error::TailBeforeTheBound, Err(3)) if late => Err(19),
            (Error::TailOfARefusedOpening, Err(_)) => {
                self.station.feeders[0].tail = opening.feeders[0].tail.min(5).into();
                answer
            }
            _ => answer,
        }
    }

    /// Drops what has come to its end, if that is the error; answers how many.
    pub fn drop_at_the_end(&mut self) -> usize {
        let (clock, held) = (self.station.clock, self.station.charges.len());
        if self.error == Error::DroppedAtTheEnd {
            self.station.charges.retain(|charge| charge.end() > clock);
        }
        held - self.station.charges.len()
    }

    pub fn shown_end(&self, found: Found) -> Found {
        match found {
            Found::Charging { start, end, rate } if self.error == Error::EndShownWithTheTail => {
                Found::Charging { start, end: end + self.station.feeders[0].tail, rate }
            }
            found => found,
        }
    }

    /// How offers and replans end, by lateness with the tail if that is the error.
    pub fn ended(&mut self, feeder: u32, list: List, rounds: u32) -> Planned {
        if self.error != Error::LatenessWithTheTail {
            return self.ended_site(feeder, list, rounds);
        }
        let before = late(&self.station.held(feeder));
        let kept = |cause| Planned { cause, before, after: before, rounds };
        let starts = match list {
            Ok(starts) => starts,
            Err(cause) => return kept(cause),
        };
        let plan = self.station.with_starts(feeder, &starts);
        match (self.station.cause(feeder, &starts), late(&of_feeder(&plan, feeder))) {
            (0 | 7, after) if after < before => {
                self.station.charges = plan;
                Planned { cause: 0, before, after, rounds }
            }
            (0, _) => kept(7),
            (cause, _) => kept(cause),
        }
    }
}

fn late(charges: &[Charge]) -> u64 {
    charges.iter().map(|charge| charge.clear().saturating_sub(charge.due)).sum()
}
