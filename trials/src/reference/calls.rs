//! The calls and what they refuse: "where several apply, its stated place goes before
//! its number" (N2). "A refusal returns its number alone; the station and every list
//! stay."

use super::search::smallest_start;
use super::station::{of_feeder, Charge, Feeder, Station, PLACES};
use crate::yard::{
    Committed, Found, Moved, Opening, Order, Planned, Refusal, Settings, Yard, NOT_HELD,
};

/// "The board asks for up to 180 tickets at a time" (N10).
const MOST_ASKED: usize = 180;

/// The refusals of a call, each with the condition for it, in the order of their places.
fn refuse_first(refusals: &[(Refusal, bool)]) -> Result<(), Refusal> {
    match refusals.iter().find(|(_, applies)| *applies) {
        Some((number, _)) => Err(*number),
        None => Ok(()),
    }
}

/// The feeders that an opening asks for, or the refusal: "Refusals 1, 2, 3 and 19 are each given
/// if any feeder up to the count meets the condition; settings past the count are not read.
/// Refused: 27, before 1, feeder count not 1 to 4; 28, after 19, W not 1 to 720" (N14).
/// "Refusal 3 is given when this D is 0" (N3). "Refused: 19, after 3, r above 5" (N7).
pub fn opened(opening: &Opening) -> Result<Vec<Feeder>, Refusal> {
    refuse_first(&[(27, !(1..=4).contains(&opening.count))])?;
    let settings: Vec<Settings> = opening.up_to_count().collect();
    let any = |meets: fn(&Settings) -> bool| settings.iter().any(meets);
    refuse_first(&[
        (1, any(|feeder| !(1..=60).contains(&feeder.limit))),
        (2, any(|feeder| feeder.percent > 100)),
    ])?;
    let feeder = |feeder: &Settings| {
        Feeder::new(feeder.limit.into(), feeder.percent.into(), feeder.tail.into())
    };
    let feeders: Vec<Feeder> = settings.iter().map(feeder).collect();
    refuse_first(&[
        (3, feeders.iter().any(|feeder| feeder.bound == 0)),
        (19, feeders.iter().any(|feeder| feeder.tail > 5)),
        (28, !(1..=720).contains(&opening.site_limit)),
    ])?;
    Ok(feeders)
}

impl Station {
    /// The feeder that a call names: "29, before 4, 10 and 11, no such feeder" (N14).
    fn named(&self, feeder: u32) -> Result<Feeder, Refusal> {
        self.feeder(feeder).copied().ok_or(29)
    }

    /// The charge that an order asks for, with the clock in the place of its start,
    /// or the refusal: "Both meet the order's refusals". "Refusals 10 and 13 look at the
    /// feeder", "Refusal 18 also covers a rate above W" (N14); 14 is about the one ticket row.
    pub fn ordered(&self, order: Order) -> Result<Charge, Refusal> {
        let Order { feeder, line, time, due, rate } = order;
        let (time, due) = (u64::from(time), u64::from(due));
        let Feeder { limit, bound, tail, .. } = self.named(feeder)?;
        let above = |most: u64| u64::from(rate) > most;
        refuse_first(&[
            (4, !(1..=3).contains(&line)),
            (5, !(1..=1_440).contains(&time)),
            (17, rate != 1 && rate != 2),
            (18, above(limit) || above(bound) || above(self.site_limit)),
            (6, due > 2_000_000),
            (13, self.held(feeder).len() == PLACES),
            (14, self.next_ticket > 65_535),
        ])?;
        let (ticket, order) = (self.next_ticket, self.clock);
        Ok(Charge { ticket, feeder, line, order, time, due, rate, start: order, tail })
    }

    /// "The start is the smallest s not below the clock with which the held plan and
    /// this charge are sound together." It "must keep its feeder sound and the site within W"
    /// (N14).
    pub fn earliest(&self, charge: &Charge) -> u64 {
        smallest_start(&self.charges, charge, self.clock, self.rules(charge.feeder))
            .expect("the held plan is sound, so there is a start behind all of it")
    }

    /// The charge that has this ticket, if one is held.
    pub fn charge(&self, ticket: u32) -> Option<&Charge> {
        self.charges.iter().find(|charge| charge.ticket == ticket)
    }

    /// "Answer: ticket and start. Tickets rise by one."
    pub fn accept(&mut self, charge: Charge) -> Committed {
        self.charges.push(charge);
        self.next_ticket += 1;
        Committed { ticket: charge.ticket, start: charge.start }
    }
}

impl Yard for Station {
    /// "Beside a refused opening stands the fresh station of 1, 100", and "r is 0" (N7); there
    /// "stand one feeder and W 720" (N14).
    fn open(&mut self, opening: &Opening) -> Result<Vec<u32>, Refusal> {
        *self = Station::fresh(1, 100, 0);
        let feeders = opened(opening)?;
        *self = Station::of(opening.site_limit.into(), feeders);
        Ok(self.feeders.iter().map(|feeder| feeder.bound as u32).collect())
    }

    /// "a preview that answers the start it would give and changes nothing"
    fn preview(&mut self, order: Order) -> Result<u64, Refusal> {
        let charge = self.ordered(order)?;
        Ok(self.earliest(&charge))
    }

    /// "a commit that takes the same order with the start shown. The commit gives a
    /// ticket and exactly that start. Refused: 16, after 14, commit whose shown start is
    /// not the earliest start at that moment."
    fn commit(&mut self, order: Order, shown: u32) -> Result<Committed, Refusal> {
        let charge = self.ordered(order)?;
        let shown = u64::from(shown);
        refuse_first(&[(16, shown != self.earliest(&charge))])?;
        Ok(self.accept(charge.starting_at(shown)))
    }

    /// "Charges with start at or above the old clock and below the target are
    /// reported: ticket, start, ticket, start, ordered by start, then ticket.
    /// Places after them keep what they held. Then finished charges are dropped." "Refusal 9
    /// requires 360 places for each feeder" (N14).
    fn move_clock(&mut self, target: u32, report: &mut [u32]) -> Result<Moved, Refusal> {
        let target = u64::from(target);
        refuse_first(&[
            (8, target > 1_000_000),
            (9, report.len() < 2 * PLACES * self.feeders.len()),
            (12, target < self.clock),
        ])?;
        let passed = self.clock..target;
        let mut reported: Vec<Charge> =
            self.charges.iter().copied().filter(|charge| passed.contains(&charge.start)).collect();
        reported.sort_by_key(|charge| (charge.start, charge.ticket));
        for (pair, charge) in report.chunks_mut(2).zip(&reported) {
            pair[0] = charge.ticket;
            pair[1] = charge.start as u32;
        }
        let held = self.charges.len();
        self.clock = target;
        self.charges.retain(|charge| !charge.finished(target));
        Ok(Moved { reported: reported.len(), dropped: held - self.charges.len() })
    }

    fn offer(&mut self, feeder: u32, starts: &[u32]) -> Result<Planned, Refusal> {
        self.named(feeder)?;
        refuse_first(&[(10, starts.len() != self.waiting(feeder).len())])?;
        let starts: Vec<u64> = starts.iter().map(|start| u64::from(*start)).collect();
        Ok(self.take_or_keep(feeder, &starts, 0))
    }

    fn replan_by_latest_start(&mut self, feeder: u32) -> Result<Planned, Refusal> {
        self.named(feeder)?;
        Ok(self.end_with(feeder, self.latest_list(feeder), 0))
    }

    fn replan_by_lines(&mut self, feeder: u32, allowance: u32) -> Result<Planned, Refusal> {
        self.named(feeder)?;
        refuse_first(&[(11, !(1..=1_000).contains(&allowance))])?;
        let (list, rounds) = self.lines_list(feeder, allowance);
        Ok(self.end_with(feeder, list, rounds))
    }

    /// "an enquiry shows it as the end" (N7): s + p, also where that is at or below the
    /// clock.
    fn enquire(&self, ticket: u32) -> Result<Found, Refusal> {
        let charge = self.charge(ticket).ok_or(15u32)?;
        let Charge { start, rate, .. } = *charge;
        Ok(if charge.begun(self.clock) {
            Found::Charging { start, end: charge.end(), rate }
        } else {
            Found::Waiting { start, rate }
        })
    }

    /// "One call takes a rising list of 32-bit numbers and writes the start of each to
    /// another such list, or 4,294,967,295 for one not held. It walks the held charges once
    /// and answers how many it looked at: those with a ticket not above the highest asked,
    /// so never more than are held; 0 for an empty list. Later places of the answer list are
    /// kept. Refused: 23, tickets not strictly rising or more than 180; 24, answer list
    /// shorter than the ticket list" (N10).
    fn board(&self, tickets: &[u32], starts: &mut [u32]) -> Result<usize, Refusal> {
        let rising = tickets.windows(2).all(|two| two[0] < two[1]);
        refuse_first(&[
            (23, !rising || tickets.len() > MOST_ASKED),
            (24, starts.len() < tickets.len()),
        ])?;
        for (start, ticket) in starts.iter_mut().zip(tickets) {
            *start = self.charge(*ticket).map_or(NOT_HELD, |charge| charge.start as u32);
        }
        let asked = |charge: &&Charge| tickets.iter().any(|ticket| charge.ticket <= *ticket);
        Ok(self.charges.iter().filter(asked).count())
    }

    /// "A waiting charge is removed, and its place is free, exactly when the remaining plan is
    /// sound; no other start moves. Refused: 25, after 15, the charge has begun; 26, after
    /// 25, the rest would not be sound" (N11): the rest of its feeder, and W (N14).
    fn withdraw(&mut self, ticket: u32) -> Result<(), Refusal> {
        let charge = *self.charge(ticket).ok_or(15u32)?;
        let mut rest = self.charges.clone();
        rest.retain(|charge| charge.ticket != ticket);
        let rules = self.rules(charge.feeder);
        let sound = rules.sound(&of_feeder(&rest, charge.feeder), self.clock)
            && rules.site_within(&rest, self.clock);
        refuse_first(&[(25, charge.begun(self.clock)), (26, !sound)])?;
        self.charges = rest;
        Ok(())
    }
}
