//! "For someone who stays, every assurance holds; a withdrawn order has no charge, though its
//! time still counts in the ceiling on ends" (N11): it is never reported, an enquiry finds
//! nothing, it draws in no minute, and its ticket is not given again.

use super::{ensure, Checked, Order, Trace};

impl Trace {
    /// "A waiting charge is removed": one that was given a ticket, has not been reported and
    /// has not been withdrawn before.
    pub(super) fn withdrawn(&mut self, ticket: u32) -> Checked {
        let order =
            self.order(u64::from(ticket)).ok_or(format!("ticket {ticket} withdrawn, not given"))?;
        ensure(order.reported.is_none(), || format!("ticket {ticket} withdrawn, begun"))?;
        ensure(!order.withdrawn, || format!("ticket {ticket} withdrawn again"))?;
        order.withdrawn = true;
        Ok(())
    }

    /// The orders of those who stay, with their tickets.
    pub(super) fn standing(&self) -> impl Iterator<Item = (usize, &Order)> {
        let orders = self.orders.iter().enumerate().map(|(place, order)| (place + 1, order));
        orders.filter(|(_, order)| !order.withdrawn)
    }
}
