//! Boards with an error in what is refused, shown or counted.

use super::{Error, Faulty};
use trials::yard::{Refusal, NOT_HELD};

impl Faulty {
    pub fn shown_board(&self, tickets: &[u32], starts: &mut [u32]) -> Result<usize, Refusal> {
        let (wrong, short) = (self.wrong_list(tickets), starts.len() < tickets.len());
        match (wrong, short) {
            (true, true) if self.error == Error::PlacesBeforeOrder => return Err(24),
            (true, _) => return Err(23),
            (false, true) => return Err(24),
            (false, false) => (),
        }
        for (start, ticket) in starts.iter_mut().zip(tickets) {
            *start = self.shown_start(*ticket);
        }
        if self.error == Error::PlacesBehindCleared {
            starts[tickets.len()..].fill(0);
        }
        let walked = self.walked(tickets, starts);
        Ok(match self.error {
            Error::LookedIsAsked => tickets.len(),
            _ => self.looked(walked.last()),
        })
    }

    fn wrong_list(&self, tickets: &[u32]) -> bool {
        let most = if self.error == Error::OneTooManyAsked { 181 } else { 180 };
        let in_order = |two: &[u32]| {
            two[0] < two[1] || (self.error == Error::EqualNeighbours && two[0] == two[1])
        };
        tickets.len() > most || !tickets.windows(2).all(in_order)
    }

    fn shown_start(&self, ticket: u32) -> u32 {
        match (self.station.charge(ticket), self.error) {
            (Some(charge), _) => charge.start as u32,
            (None, Error::ZeroForNotHeld) => 0,
            (None, _) => NOT_HELD,
        }
    }

    /// The tickets that the walk comes to: all, or those up to the first that is not held,
    /// and the ones behind it are shown as not held.
    fn walked<'a>(&self, tickets: &'a [u32], starts: &mut [u32]) -> &'a [u32] {
        let unheld = tickets.iter().position(|ticket| self.station.charge(*ticket).is_none());
        match unheld {
            Some(place) if self.error == Error::StopsAtNotHeld => {
                starts[place..tickets.len()].fill(NOT_HELD);
                &tickets[..place]
            }
            _ => tickets,
        }
    }

    fn looked(&self, highest: Option<&u32>) -> usize {
        let asked = |ticket: u32| highest.is_some_and(|highest| ticket <= *highest);
        self.station.charges.iter().filter(|charge| asked(charge.ticket)).count()
    }
}
