//! Fields of valid images with other numbers in their place, drawn by lot from the edges of
//! their ranges and near what they held, and the checks made right. Some are still valid.

use super::elsewhere::calls_after;
use super::{stations, Trial};
use crate::image::image_of;
use crate::random::Random;
use crate::reference::{Charge, Station};
use std::collections::HashMap;

const KINDS: [&str; 7] = ["mixed", "tails", "rates", "evening", "full", "leaning", "narrow"];

fn near(random: &mut Random, value: u64, edges: &[u64], most: u64) -> u64 {
    let edge = if random.percent(50) { value } else { random.pick(edges) };
    let moved = match random.below(4) {
        0 => edge.saturating_sub(1),
        1 => edge + 1,
        2 => edge + random.below(100),
        _ => edge,
    };
    moved.min(most)
}

fn edit_settings(random: &mut Random, station: &mut Station) {
    let limit = u64::from(u32::MAX);
    let feeder = &mut station.feeders[0];
    match random.below(7) {
        0 => feeder.limit = near(random, feeder.limit, &[1, 2, 60], 1_000),
        1 => feeder.percent = near(random, feeder.percent, &[0, 1, 50, 100], limit),
        2 => feeder.tail = near(random, feeder.tail, &[0, 5], limit),
        3 => station.clock = near(random, station.clock, &[0, 1_000_000], limit),
        4 | 5 => station.site_limit = near(random, station.site_limit, &[0, 1, 5, 30, 720], limit),
        _ => {
            let next = u64::from(station.next_ticket);
            station.next_ticket = near(random, next, &[0, 1, 181, 65_536], limit) as u32;
        }
    }
}

fn edit_charge(random: &mut Random, charge: &mut Charge, clock: u64) {
    let limit = u64::from(u32::MAX);
    match random.below(8) {
        0 => {
            let ticket = u64::from(charge.ticket);
            charge.ticket = near(random, ticket, &[0, 1, 65_535], limit) as u32;
        }
        1 => charge.start = near(random, charge.start, &[0, clock, charge.order], limit),
        2 => charge.start = near(random, charge.start, &[clock + 1_445, limit - 1_440], limit),
        3 => charge.due = near(random, charge.due, &[0, 2_000_000, limit], limit),
        4 => charge.order = near(random, charge.order, &[0, clock, charge.start], limit),
        5 => charge.time = near(random, charge.time, &[0, 1, 1_440, 65_535], 65_535),
        6 => charge.line = near(random, charge.line.into(), &[0, 1, 2, 3], 255) as u32,
        _ => charge.rate = near(random, charge.rate.into(), &[0, 1, 2], 255) as u32,
    }
}

fn edited(random: &mut Random, station: &mut Station) {
    for _ in 0..random.pick(&[1, 1, 1, 2]) {
        let held = station.charges.len();
        match random.below(12) {
            0 | 1 => edit_settings(random, station),
            2 if held > 1 => station.charges.swap(held / 2, held / 2 - 1),
            3 if held > 0 => drop(station.charges.remove(random.below(held as u64) as usize)),
            _ if station.charges.is_empty() => edit_settings(random, station),
            _ => {
                let (clock, place) = (station.clock, random.below(station.charges.len() as u64));
                edit_charge(random, &mut station.charges[place as usize], clock);
            }
        }
    }
}

/// So many numbers in a row take their stations from the same scripts.
const GROUP: u64 = 180;

pub fn trials(seed: u64, count: u64) -> impl Iterator<Item = Trial> {
    let mut stations: HashMap<(&str, u64), Station> = HashMap::new();
    (0..count).map(move |number| {
        let mut random = Random::of_script(seed.wrapping_add(77), number);
        if number % GROUP == 0 {
            stations.clear();
        }
        let (kind, share) = (random.pick(&KINDS), random.pick(&[15, 30, 50, 80]));
        let made = || stations::of_script(kind, seed, number / GROUP, share);
        let mut station = stations.entry((kind, share)).or_insert_with(made).clone();
        edited(&mut random, &mut station);
        let image = image_of(&station);
        let calls = calls_after(&image, &mut random, 2);
        Trial { title: format!("image {number} with other numbers"), image, calls }
    })
}

#[cfg(test)]
mod tests {
    use super::*;
    use crate::image::blocks::contents;
    use crate::image::rules::{broken, Rule};
    use crate::image::{restore, station_in};

    /// N14: some have a W below 720 that is just reached and are accepted, others are refused for
    /// a W that is exceeded and for nothing else.
    #[test]
    fn site_limits_bind() {
        let (mut reached, mut exceeded) = (0, 0);
        for Trial { image, .. } in trials(1, 3_000) {
            let station = station_in(&contents(&image));
            match restore(&image) {
                Ok(_) if station.site_limit < 720 => {
                    let full = station.rules(1).site_full(&station.charges, station.clock);
                    reached += usize::from(full);
                }
                Ok(_) => (),
                Err(_) => exceeded += usize::from(broken(&station) == [Rule::SiteExceeded].into()),
            }
        }
        assert!(reached >= 50 && exceeded >= 15, "{reached} reached, {exceeded} exceeded");
    }
}
