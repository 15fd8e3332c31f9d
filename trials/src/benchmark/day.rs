//! Days of the benchmark of source document 000, section 10.1, as scripts.

use crate::fast::Station;
use crate::fill::{fill, open_commit};
use crate::generate::cars::{self, Car};
use crate::protocol::{write_call, Call};
use crate::random::Random;
use crate::script::Line;
use crate::yard::{Opening, Order};

/// "a car park with 180 spaces": each space has one car in a day, so no order is
/// ever refused for want of a place.
const CARS: u64 = 180;
/// The supervisor looks at the station so often (the source's ΔT), in minutes.
const SUPERVISED: u32 = 2;
/// Every start lies below it, so the last move reports whatever still waits.
const LAST_MINUTE: u32 = 1_000_000;
const PLACES: u32 = 360;
/// The largest that is not refused.
pub const ALLOWANCE: u32 = 1_000;

/// One of the 72 classes.
#[derive(Clone, Copy, Debug, PartialEq, Eq)]
pub struct Class {
    pub scenario: u64,
    /// Type 1 of the source; else type 2, by 10, 30 and 60 of a hundred.
    pub even: bool,
    pub limit: u32,
    pub percent: u32,
}

pub fn classes() -> Vec<Class> {
    let mut classes = Vec::new();
    for scenario in 1..=3 {
        for even in [true, false] {
            for limit in [20, 30, 40] {
                for percent in [20, 40, 60, 80] {
                    classes.push(Class { scenario, even, limit, percent });
                }
            }
        }
    }
    classes
}

/// What the supervisor does when a car arrived since it looked last.
#[derive(Clone, Copy, Debug, PartialEq, Eq)]
pub enum Replan {
    Never,
    Latest,
    Lines,
}

pub const REPLANS: [Replan; 3] = [Replan::Never, Replan::Latest, Replan::Lines];

impl Replan {
    pub fn title(self) -> &'static str {
        match self {
            Replan::Never => "orders and moves only",
            Replan::Latest => "replan by latest start",
            Replan::Lines => "replan by lines",
        }
    }

    fn call(self) -> Option<Call> {
        match self {
            Replan::Never => None,
            Replan::Latest => Some(Call::Latest { feeder: 1 }),
            Replan::Lines => Some(Call::Lines { feeder: 1, allowance: ALLOWANCE }),
        }
    }
}

/// Day number so and so of a class. Classes that differ in N and Δ alone share
/// their cars, so that a row of a table compares like with like.
pub fn script(class: Class, number: u64, replan: Replan) -> Vec<Line> {
    let cars_of = 2 * class.scenario + u64::from(class.even);
    let mut random = Random::of_script(cars_of, number);
    let cars = cars::of_day(&mut random, class.scenario, class.even, CARS);
    script_of(class, &cars, replan)
}

/// Every driver commits to the start that the station shows, so that an order is one
/// call; the fast program finds these starts.
fn script_of(class: Class, cars: &[Car], replan: Replan) -> Vec<Line> {
    let mut day = Day { clock: 0, lines: Vec::new() };
    day.call(&Call::Open { opening: Opening::of_one(class.limit, class.percent, 0) });
    for (place, car) in cars.iter().enumerate() {
        day.move_to(car.arrival);
        let Car { line, time, due, .. } = *car;
        day.lines.push(open_commit(Order { feeder: 1, line, time, due, rate: 1 }));
        // The first look after this arrival; a next car that comes before it
        // is part of the same look.
        let look = (car.arrival / SUPERVISED + 1) * SUPERVISED;
        let next = cars.get(place + 1).map_or(LAST_MINUTE, |car| car.arrival);
        if let Some(call) = replan.call().filter(|_| next >= look) {
            day.move_to(look);
            day.call(&call);
        }
    }
    day.move_to(LAST_MINUTE);
    fill(Station::fresh(1, 100, 0), &day.lines)
}

struct Day {
    clock: u32,
    lines: Vec<Line>,
}

impl Day {
    fn call(&mut self, call: &Call) {
        self.lines.push(write_call(call).into_bytes());
    }

    fn move_to(&mut self, target: u32) {
        if target > self.clock {
            self.call(&Call::Move { target, places: PLACES });
            self.clock = target;
        }
    }
}

#[cfg(test)]
mod tests {
    use super::*;
    use crate::script::{reference_answers, show};

    const CLASS: Class = Class { scenario: 1, even: true, limit: 5, percent: 20 };

    fn car(arrival: u32) -> Car {
        Car { arrival, line: 1, time: 10, due: arrival + 20 }
    }

    #[test]
    fn there_are_72_classes() {
        assert_eq!(classes().len(), 72);
    }

    #[test]
    fn one_look_for_the_cars_that_came_since_the_last() {
        let lines = script_of(CLASS, &[car(0), car(1), car(2), car(7)], Replan::Latest);
        let text: Vec<String> = lines.iter().map(|line| show(line)).collect();
        let expected = [
            "open 1 720 5 20 0",
            "commit 1 1 10 20 1 0",
            "move 1 360",
            "commit 1 1 10 21 1 10",
            "move 2 360",
            "latest 1",
            "commit 1 1 10 22 1 20",
            "move 4 360",
            "latest 1",
            "move 7 360",
            "commit 1 1 10 27 1 30",
            "move 8 360",
            "latest 1",
            "move 1000000 360",
        ];
        assert_eq!(text, expected);
    }

    #[test]
    fn every_order_of_a_day_is_accepted() {
        let class = classes()[71];
        let answers = reference_answers(&script(class, 0, Replan::Never));
        assert!(!answers.iter().any(|answer| answer.starts_with(b"refused")));
        let tickets = answers.iter().filter(|answer| answer.starts_with(b"ticket")).count();
        assert_eq!(tickets, 180);
    }
}
