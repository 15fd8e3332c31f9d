//! "stations whose fields are in range and meet neither refusal 3 nor 18, whose tickets,
//! the next one last, are 1 or more and rise, whose charges are unfinished with starts not
//! before order minutes, nor those after the clock, no end above the clock plus 1,445 for
//! each ticket given, and whose plan is sound". "22 covers W out of range or exceeded" (N14),
//! and a rate above W, which is refusal 18 now.

use crate::reference::{Charge, Feeder, Station, PLACES};
use std::collections::BTreeSet;

/// What can be wrong with the contents of an image.
#[derive(Clone, Copy, Debug, PartialEq, Eq, PartialOrd, Ord)]
pub enum Rule {
    // Fields in range.
    Limit,
    Percent,
    Tail,
    Clock,
    NextTicket,
    Held,
    SiteLimit,
    Time,
    Due,
    Line,
    Rate,
    /// Refusal 3.
    Bound,
    /// Refusal 18.
    RateAbove,
    /// "tickets, the next one last, are 1 or more and rise"
    Tickets,
    /// "unfinished"
    Finished,
    /// "starts not before order minutes"
    StartBeforeOrder,
    /// "nor those after the clock"
    OrderAfterClock,
    /// "no end above the clock plus 1,445 for each ticket given"
    EndTooLate,
    /// "whose plan is sound"
    Unsound,
    /// "W [..] exceeded", from the clock on
    SiteExceeded,
}

/// Minutes by which an order moves the last end at most, tail included.
const FOR_A_TICKET: u64 = 1_445;

/// Every rule that a station breaks.
pub fn broken(station: &Station) -> BTreeSet<Rule> {
    let charges = station.charges.iter().flat_map(|charge| of_charge(charge, station));
    let all = settings(station).into_iter().chain(charges);
    let mut broken: BTreeSet<Rule> =
        all.filter(|(_, holds)| !holds).map(|(rule, _)| rule).collect();
    // A line that there is not has no count.
    if !broken.contains(&Rule::Line) && !sound(station) {
        broken.insert(Rule::Unsound);
    }
    let measured = !broken.contains(&Rule::Line) && !broken.contains(&Rule::SiteLimit);
    if measured && !station.rules(1).site_within(&station.charges, station.clock) {
        broken.insert(Rule::SiteExceeded);
    }
    broken
}

fn settings(station: &Station) -> [(Rule, bool); 9] {
    let Station { site_limit, feeders, clock, next_ticket, charges } = station;
    let Feeder { limit, percent, bound, tail } = &feeders[0];
    let tickets: Vec<u32> =
        charges.iter().map(|charge| charge.ticket).chain([*next_ticket]).collect();
    let rising = tickets.windows(2).all(|pair| pair[0] < pair[1]);
    // Without a limit or a percentage in range there is no bound to speak of.
    let unbounded = !(1..=60).contains(limit) || *percent > 100;
    [
        (Rule::Limit, (1..=60).contains(limit)),
        (Rule::Percent, *percent <= 100),
        (Rule::Tail, *tail <= 5),
        (Rule::Clock, *clock <= 1_000_000),
        (Rule::NextTicket, (1..=65_536).contains(next_ticket)),
        (Rule::Held, charges.len() <= PLACES),
        (Rule::SiteLimit, (1..=720).contains(site_limit)),
        (Rule::Bound, unbounded || *bound > 0),
        (Rule::Tickets, tickets[0] >= 1 && rising),
    ]
}

fn of_charge(charge: &Charge, station: &Station) -> [(Rule, bool); 9] {
    let Station { site_limit, clock, next_ticket, .. } = station;
    let Feeder { limit, bound, .. } = &station.feeders[0];
    let given = u64::from(next_ticket.saturating_sub(1));
    let weight = charge.weight();
    // Without a site limit in range there is none to be above.
    let limited = (1..=720).contains(site_limit);
    [
        (Rule::Time, (1..=1_440).contains(&charge.time)),
        (Rule::Due, charge.due <= 2_000_000),
        (Rule::Line, (1..=3).contains(&charge.line)),
        (Rule::Rate, weight == 1 || weight == 2),
        (
            Rule::RateAbove,
            weight <= *limit && weight <= *bound && (weight <= *site_limit || !limited),
        ),
        (Rule::Finished, !charge.finished(*clock)),
        (Rule::StartBeforeOrder, charge.start >= charge.order),
        (Rule::OrderAfterClock, charge.order <= *clock),
        (Rule::EndTooLate, charge.end() <= clock + FOR_A_TICKET * given),
    ]
}

fn sound(station: &Station) -> bool {
    station.rules(1).sound(&station.charges, station.clock)
}

#[cfg(test)]
mod tests {
    use super::*;
    use crate::random::Random;
    use crate::reference::{last_clear, minutes};

    fn drawn(random: &mut Random) -> Station {
        let clock = 50;
        let mut station = Station { clock, ..Station::fresh(random.between(1, 4), 60, 2) };
        for ticket in 1..=random.between(0, 6) as u32 {
            let (line, rate) = (random.between(1, 3) as u32, random.between(1, 2) as u32);
            let (start, time) = (random.between(30, 70), random.between(1, 30));
            let (feeder, order, due, tail) = (1, 30, 0, 2);
            let charge = Charge { ticket, feeder, line, order, time, due, rate, start, tail };
            station.charges.push(charge);
        }
        station
    }

    /// The minutes of change say what all minutes say.
    #[test]
    fn sound_in_every_minute() {
        let mut random = Random::new(4);
        let mut unsound = 0;
        for _ in 0..2_000 {
            let station = drawn(&mut random);
            let minutes = last_clear(&station.charges).saturating_sub(station.clock);
            let counts = minutes::counts(&station.charges, station.clock, minutes);
            let all = counts.iter().all(|counts| station.rules(1).sound_in(counts));
            assert_eq!(sound(&station), all, "{station:?}");
            unsound += usize::from(!all);
            let most = minutes::site_counts(&station.charges, station.clock, minutes);
            let most = most.into_iter().max().unwrap_or(0);
            for site_limit in [most, most.saturating_sub(1)] {
                let station = Station { site_limit, ..station.clone() };
                let within = station.rules(1).site_within(&station.charges, station.clock);
                assert_eq!(within, site_limit == most, "{station:?}");
            }
        }
        assert!((400..1_600).contains(&unsound), "{unsound}");
    }
}
