//! Valid images that no list of calls gives: tickets with gaps, waiting charges that start
//! later than they need, a past out of balance. The restore's list is all that is known of
//! them, and the calls go on from there.

use super::{Trial, CALLS};
use crate::generate;
use crate::image::{image_of, restore, rules};
use crate::random::Random;
use crate::reference::{last_clear, Charge, Feeder, Station};
use crate::script::Line;

/// The reference goes over all minutes up to the last end for orders and replans; where
/// these are more, only calls that do not are made.
const MOST_MINUTES: u64 = 1_000_000;

/// Calls by what the image holds: one of each kind where it is refused, else a mixture.
pub fn calls_after(image: &[u8], random: &mut Random, count: u64) -> Vec<Line> {
    let Ok(station) = restore(image) else {
        return vec![random.pick(&CALLS).as_bytes().to_vec()];
    };
    if last_clear(&station.charges) > station.clock + MOST_MINUTES {
        let target = (station.clock + random.below(2_000)).min(1_000_000);
        let ticket = station.charges[0].ticket;
        let last = station.charges[station.charges.len() - 1].ticket;
        let calls = [
            format!("enquire {ticket}"),
            format!("withdraw {last}"),
            format!("move {target} 360"),
            format!("board 2 {ticket} {}", u32::MAX),
            format!("withdraw {ticket}"),
            format!("enquire {ticket}"),
        ];
        return calls.map(String::into_bytes).into();
    }
    generate::continuing(station, random, count)
}

/// An empty station at any clock.
fn settings(random: &mut Random) -> Station {
    let limit = random.pick(&[1, 2, 3, 5, 12, 60]);
    let bound = random.between(1, limit);
    let percent = (100 * bound + limit / 2) / limit;
    let tail = random.between(0, 5);
    let clock = random.pick(&[0, 1, 90, 5_000, 999_990, 1_000_000]);
    let site_limit = random.pick(&[720, 720, 720, 720, 3 * limit, 2 * limit, limit]);
    let station = Station::fresh(limit, percent.min(100), tail);
    Station { clock, site_limit, ..station }
}

/// A charge that has begun some time ago, starts now, soon, or much later.
fn charge(random: &mut Random, station: &Station, ticket: u32) -> Charge {
    let Station { clock, site_limit, .. } = *station;
    let Feeder { tail, bound, .. } = station.feeders[0];
    let time = random.pick(&[1, 2, 10, 60, 400, 1_440]);
    let start = match random.below(5) {
        0 | 1 => clock.saturating_sub(random.below(time + tail)),
        2 => clock,
        3 => clock + random.below(50),
        _ => clock + random.below(1_200),
    };
    let order = random.below(clock.min(start) + 1).max(clock.min(start).saturating_sub(500));
    let order = if random.percent(20) { clock.min(start) } else { order };
    Charge {
        ticket,
        feeder: 1,
        line: random.between(1, 3) as u32,
        order,
        time,
        due: random.pick(&[0, 1, clock + time, clock + 700, 2_000_000]).min(2_000_000),
        rate: random.between(1, bound.min(site_limit).min(2)) as u32,
        start,
        tail,
    }
}

/// Charges are tried one after the other, and several at once, since begun ones may lean
/// on each other; those with which the station is in order stay.
pub fn station(random: &mut Random) -> Station {
    let mut station = settings(random);
    station.next_ticket = random.between(1, 40) as u32;
    let wanted = random.pick(&[0, 3, 8, 20, 60]);
    for _ in 0..4 * wanted {
        let mut more = station.clone();
        for _ in 0..random.between(1, 4) {
            let ticket = more.next_ticket;
            more.charges.push(charge(random, &more, ticket));
            more.next_ticket += random.pick(&[1, 1, 2, 30, 400]);
        }
        if rules::broken(&more).is_empty() {
            station = more;
        }
    }
    if random.percent(5) {
        station.next_ticket = random.pick(&[65_535, 65_536]).max(station.next_ticket);
    }
    station
}

pub fn trials(seed: u64, count: u64) -> impl Iterator<Item = Trial> {
    (0..count).map(move |number| {
        let mut random = Random::of_script(seed.wrapping_add(99), number);
        let image = image_of(&station(&mut random));
        let calls = random.between(2, 25);
        let calls = calls_after(&image, &mut random, calls);
        Trial { title: format!("image {number} from elsewhere"), image, calls }
    })
}

#[cfg(test)]
mod tests {
    use super::*;
    use crate::reference::minutes::counts;

    /// They hold what lists of calls do not give.
    #[test]
    fn stations_that_calls_do_not_give() {
        let mut random = Random::new(3);
        let (mut gaps, mut pasts, mut full) = (0, 0, 0);
        for _ in 0..400 {
            let station = station(&mut random);
            assert!(rules::broken(&station).is_empty(), "{station:?}");
            let tickets: Vec<u32> = station.charges.iter().map(|charge| charge.ticket).collect();
            gaps += usize::from(tickets.windows(2).any(|pair| pair[0] + 1 < pair[1]));
            let before = counts(&station.charges, station.clock.saturating_sub(1), 1)[0];
            pasts += usize::from(station.clock > 0 && !station.rules(1).sound_in(&before));
            full += usize::from(station.charges.len() > 20);
        }
        assert!(gaps > 100 && pasts > 20 && full > 20, "{gaps} {pasts} {full}");
    }
}
