//! The cars of a day after section 10.1 of source document 000: when they arrive,
//! on which line, how long they charge and when they are due.

use crate::random::Random;

pub struct Car {
    pub arrival: u32,
    pub line: u32,
    pub time: u32,
    pub due: u32,
}

/// Table 1: of a hundred cars so many arrive around a mean with a deviation;
/// the rest arrives at any time of the day.
type Peaks = &'static [(u64, i64, i64)];
const PEAKS_1: Peaks = &[(20, 510, 15), (10, 720, 15), (50, 1170, 15), (10, 1350, 15)];
const PEAKS_2_3: Peaks = &[(80, 870, 30)];

fn arrival(random: &mut Random, scenario: u64) -> u64 {
    let peaks = if scenario == 1 { PEAKS_1 } else { PEAKS_2_3 };
    let mut draw = random.below(100);
    for (share, mean, deviation) in peaks {
        if draw < *share {
            return random.normal(*mean, *deviation).clamp(0, 1_440) as u64;
        }
        draw -= share;
    }
    random.between(0, 1_440)
}

/// Table 2: share, initial charge in tenths of a percent with its deviation,
/// mean of the due minutes after arrival in scenarios 1 and 2, and in 3.
const BATTERIES: [(u64, i64, i64, i64, i64); 4] = [
    (10, 800, 100, 240, 120),
    (30, 500, 150, 360, 300),
    (30, 350, 75, 480, 360),
    (30, 120, 60, 660, 540),
];

/// Charging time and minutes until due. A full charge is 23 kWh at 2.3 kW, which
/// is 600 minutes. "the charging time is set as p = d − t if the randomly
/// generated value were larger than this".
fn battery(random: &mut Random, scenario: u64) -> (u32, u32) {
    let mut draw = random.below(100);
    let mut row = 0;
    while draw >= BATTERIES[row].0 {
        draw -= BATTERIES[row].0;
        row += 1;
    }
    let (_, charge, deviation, loose, tight) = BATTERIES[row];
    let charge = random.normal(charge, deviation).clamp(0, 990);
    let until_due = match scenario {
        3 => random.normal(tight, 60),
        _ => random.normal(loose, 120),
    };
    let until_due = until_due.max(1);
    let time = ((1_000 - charge) * 600 / 1_000).min(until_due);
    (time as u32, until_due as u32)
}

/// Type 1 spreads evenly, type 2 by 10, 30 and 60 of a hundred.
fn line(random: &mut Random, even: bool) -> u32 {
    if even {
        return random.between(1, 3) as u32;
    }
    match random.below(100) {
        0..=9 => 1,
        10..=39 => 2,
        _ => 3,
    }
}

/// In the order of their arrival.
pub fn of_day(random: &mut Random, scenario: u64, even: bool, count: u64) -> Vec<Car> {
    let mut cars = Vec::new();
    for _ in 0..count {
        let arrival = arrival(random, scenario) as u32;
        let line = line(random, even);
        let (time, until_due) = battery(random, scenario);
        cars.push(Car { arrival, line, time, due: arrival + until_due });
    }
    cars.sort_by_key(|car| car.arrival);
    cars
}
