//! What a board shows (N10) is what enquiries would give: the start of each ticket that is
//! held, and no start for any other.

use super::{ensure, Checked, Trace};
use crate::told::Told;
use crate::yard::NOT_HELD;

impl Trace {
    /// "writes the start of each to another such list, or 4,294,967,295 for one not held",
    /// "and answers how many it looked at".
    pub(super) fn board(&mut self, tickets: &[u32], told: &Told) -> Checked {
        let Told::Board { looked, starts } = told else { return Ok(()) };
        for (ticket, start) in tickets.iter().zip(starts) {
            self.shown(*ticket, *start)?;
        }
        let held = self.held_up_to(tickets.last());
        ensure(*looked == held, || format!("the board looked at {looked} charges of {held}"))
    }

    fn shown(&mut self, ticket: u32, start: u64) -> Checked {
        let clock = self.clock;
        let wrong = || format!("the board shows {start} for ticket {ticket}");
        let held = self.order(u64::from(ticket)).filter(|order| order.held(clock));
        let Some(order) = held else { return ensure(start == u64::from(NOT_HELD), wrong) };
        match order.start() {
            Some(known) => ensure(start == known, wrong),
            None => {
                ensure(start >= clock && start != u64::from(NOT_HELD), wrong)?;
                order.waiting = Some(start);
                Ok(())
            }
        }
    }

    /// "those with a ticket not above the highest asked, so never more than are held; 0 for
    /// an empty list"
    fn held_up_to(&self, highest: Option<&u32>) -> u64 {
        let most = highest.map_or(0, |ticket| *ticket as usize);
        let orders = self.orders.iter().take(most);
        orders.filter(|order| order.held(self.clock)).count() as u64
    }
}
