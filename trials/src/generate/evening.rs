//! Busy days after section 10.1 of source document 000: three scenarios, both
//! ways to spread cars over the lines, N 20, 30 or 40, and Δ 0.2 to 0.8. Some of the
//! drivers are in a hurry, and some charge at the higher rate.

use super::author::Author;
use super::cars::{self, Car};
use super::{due, hurry};
use crate::yard::Order;

/// A scenario and a spread drawn by lot, with fewer cars than the station has places
/// at times.
fn cars(author: &mut Author) -> Vec<Car> {
    let scenario = author.random.between(1, 3);
    let even = author.random.percent(50);
    let count = author.random.between(40, 180);
    cars::of_day(&mut author.random, scenario, even, count)
}

fn supervise(author: &mut Author) {
    match author.random.below(3) {
        0 => author.latest(),
        1 => author.lines(1_000),
        _ => super::plans::offer(author),
    }
}

pub fn write(author: &mut Author) {
    let limit = author.random.pick(&[20, 30, 40]);
    let percent = author.random.pick(&[20, 40, 60, 80]);
    author.open(limit, percent);
    for car in cars(author) {
        if car.arrival > author.clock() {
            author.move_to(car.arrival);
        }
        let in_a_hurry = author.random.percent(10);
        let due = if in_a_hurry { hurry::due(author, car.time) } else { car.due };
        let rate = due::rate(author);
        author.take(Order { feeder: author.feeder, line: car.line, time: car.time, due, rate });
        if author.random.percent(6) {
            supervise(author);
        }
    }
    author.latest();
    author.lines(1_000);
    let minutes = author.random.between(1, 2_000);
    author.move_on(minutes);
}
