//! What one call and its answer tell of the charges of an evening. What no right program would
//! tell is kept with the call, and the reading goes on with what was told.

use super::charge::{Charge, Happened};
use super::evening::Evening;
use crate::protocol::Call;
use crate::told::Told;
use crate::yard::{Order, NOT_HELD};

impl Evening {
    /// Takes in the call of the last entry.
    pub(super) fn step(&mut self) {
        let moment = self.last();
        let entry = &self.entries[moment];
        let (Ok(call), Some(told)) = (entry.call.clone(), entry.told.clone()) else { return };
        match (call, told) {
            (_, Told::Opened { bounds }) => self.opened(&bounds),
            (Call::Commit { order, shown }, Told::Accepted { ticket, start }) => {
                self.ordered(&order, shown, ticket, start);
            }
            (Call::Move { target, .. }, Told::Moved { reported, dropped }) => {
                self.moved(target.into(), &reported, dropped);
            }
            (Call::Offer { feeder, starts }, Told::Planned { cause: 0, .. }) => {
                self.taken(feeder, &starts);
            }
            (
                Call::Latest { feeder } | Call::Lines { feeder, .. },
                Told::Planned { cause: 0, .. },
            ) => self.taken(feeder, &[]),
            (
                Call::Enquire { ticket },
                Told::Waiting { start, .. } | Told::Charging { start, .. },
            ) => self.told(ticket.into(), start),
            (Call::Board { tickets, .. }, Told::Board { starts, .. }) => {
                let held = |(_, start): &(&u32, &u64)| **start != u64::from(NOT_HELD);
                for (ticket, start) in tickets.iter().zip(&starts).filter(held) {
                    self.told((*ticket).into(), *start);
                }
            }
            (Call::Withdraw { ticket }, Told::Withdrawn) => self.withdrawn(ticket.into()),
            _ => (),
        }
        self.entries[moment].clock = self.clock;
    }

    /// Something that no right program does.
    fn broken(&mut self, what: String) {
        let moment = self.last();
        self.entries[moment].broken.push(what);
    }

    fn now(&self) -> Happened {
        Happened { moment: self.last(), minute: self.clock }
    }

    fn charge(&mut self, ticket: u64) -> Option<&mut Charge> {
        // Tickets are 1, 2, 3 and so on, but for a program that errs.
        let usual = usize::try_from(ticket).ok()?.checked_sub(1);
        let has_it =
            |place: &usize| self.charges.get(*place).is_some_and(|one| one.ticket == ticket);
        let place = usual
            .filter(has_it)
            .or_else(|| self.charges.iter().rposition(|one| one.ticket == ticket))?;
        self.charges.get_mut(place)
    }

    fn opened(&mut self, told: &[u64]) {
        let right: Vec<u64> = self.site.feeders.iter().map(|feeder| feeder.bound).collect();
        if told != right {
            self.broken(format!("bounds {told:?} told where {right:?} are right"));
        }
    }

    fn ordered(&mut self, order: &Order, shown: u32, ticket: u64, start: u64) {
        let next = self.charges.last().map_or(1, |charge| charge.ticket + 1);
        if ticket != next {
            self.broken(format!("ticket {ticket} where {next} is next"));
        }
        if start != u64::from(shown) {
            self.broken(format!("ticket {ticket} starts in {start}, not in {shown} as shown"));
        }
        if start < self.clock {
            self.broken(format!("ticket {ticket} starts in {start}, before its order"));
        }
        let Some(feeder) = self.site.feeder(order.feeder).filter(|_| (1..=3).contains(&order.line))
        else {
            let Order { feeder, line, .. } = order;
            return self.broken(format!("ticket {ticket} for line {line} of feeder {feeder}"));
        };
        let tail = feeder.tail;
        let mut charge = Charge {
            ticket,
            feeder: order.feeder,
            line: order.line,
            rate: order.rate,
            time: order.time.into(),
            due: order.due.into(),
            tail,
            ordered: self.now(),
            held: Vec::new(),
            reported: None,
            withdrawn: None,
        };
        charge.replanned(self.last(), Some(start));
        self.charges.push(charge);
    }

    /// An answer tells the start of a charge.
    fn told(&mut self, ticket: u64, start: u64) {
        let moment = self.last();
        let Some(charge) = self.charge(ticket) else {
            return self.broken(format!("ticket {ticket} is found and was not given"));
        };
        // "the one reported by the clock move that passed it", whatever is told later.
        if let Some(reported) = charge.reported.filter(|reported| reported.minute != start) {
            let began = reported.minute;
            return self
                .broken(format!("ticket {ticket} began in {began}, and is told to in {start}"));
        }
        if let Err(known) = charge.learn(moment, start) {
            self.broken(format!("ticket {ticket} had start {known}, and has {start} with no plan"));
        }
    }

    fn moved(&mut self, target: u64, reported: &[(u64, u64)], dropped: u64) {
        let (before, moment) = (self.clock, self.last());
        if target < before {
            self.broken(format!("the clock runs back from {before}"));
        }
        self.clock = target;
        for &(ticket, start) in reported {
            self.told(ticket, start);
            if start < before || start >= target {
                self.broken(format!("ticket {ticket} with start {start} is reported here"));
            }
            let Some(charge) = self.charge(ticket) else { continue };
            let waited = charge.waits();
            charge.reported = Some(Happened { moment, minute: start });
            if !waited {
                self.broken(format!("ticket {ticket} does not wait and is reported"));
            }
        }
        self.overlooked(before);
        self.dropped(before, dropped);
    }

    /// Charges that the move passed and did not report.
    fn overlooked(&mut self, before: u64) {
        let (moment, clock) = (self.last(), self.clock);
        let passed = |charge: &&Charge| {
            let start = charge.start_after(moment);
            charge.waits() && start.is_some_and(|start| before <= start && start < clock)
        };
        let tickets: Vec<u64> = self.charges.iter().filter(passed).map(|one| one.ticket).collect();
        for ticket in tickets {
            self.broken(format!("ticket {ticket} begins and is not reported"));
        }
    }

    /// "is finished when s + p + r is at or below the clock" (N7): those of this move.
    fn dropped(&mut self, before: u64, told: u64) {
        let clock = self.clock;
        let finished = |charge: &&Charge| {
            let clear = charge.reported.map(|reported| charge.clear(reported.minute));
            clear.is_some_and(|clear| before < clear && clear <= clock)
        };
        let count = self.charges.iter().filter(finished).count() as u64;
        if count != told {
            self.broken(format!("{told} dropped where {count} are finished"));
        }
    }

    /// The waiting charges of the feeder have other starts: those of an offer, in ticket order,
    /// or such as a later answer tells.
    fn taken(&mut self, feeder: u32, starts: &[u32]) {
        let moment = self.last();
        let waiting = |charge: &&mut Charge| charge.feeder == feeder && charge.waits();
        let mut starts = starts.iter();
        for charge in self.charges.iter_mut().filter(waiting) {
            charge.replanned(moment, starts.next().map(|start| u64::from(*start)));
        }
    }

    fn withdrawn(&mut self, ticket: u64) {
        let now = self.now();
        let Some(charge) = self.charge(ticket) else {
            return self.broken(format!("ticket {ticket} is withdrawn and was not given"));
        };
        let waited = charge.waits();
        charge.withdrawn = Some(now);
        if !waited {
            self.broken(format!("ticket {ticket} does not wait and is withdrawn"));
        }
    }
}
