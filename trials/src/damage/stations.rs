//! Stations that images are made of.

use crate::generate;
use crate::image::blocks::{sealed, Contents};
use crate::interpret::Interpreter;
use crate::reference::{bound, Charge, Feeder, Station};

/// What an image does not hold, as it follows from the rest: the bound, and the tail that
/// each charge has from its station.
pub fn settled(mut station: Station) -> Station {
    let Feeder { limit, percent, tail, .. } = station.feeders[0];
    station.charges.iter_mut().for_each(|charge| charge.tail = tail);
    station.feeders[0].bound = if limit <= 1_000 { bound(limit, percent) } else { 0 };
    station
}

pub fn charge(ticket: u32, line: u32, rate: u32, start: u64, time: u64) -> Charge {
    let (feeder, order, due, tail) = (1, start.min(70), 200, 0);
    Charge { ticket, feeder, line, order, time, due, rate, start, tail }
}

/// Clock 100, D 3 and r 2; two have begun, one may begin now, one is far off.
pub fn some() -> Station {
    let charges = vec![
        charge(2, 1, 1, 95, 20),
        charge(3, 2, 2, 90, 15),
        charge(5, 3, 1, 100, 30),
        charge(7, 1, 2, 150, 1_440),
    ];
    settled(Station { clock: 100, next_ticket: 8, charges, ..Station::fresh(10, 30, 2) })
}

/// A wide one at clock 100 without charges.
pub fn wide() -> Station {
    Station { clock: 100, next_ticket: 600, ..Station::fresh(60, 100, 0) }
}

/// The station after so many lines of a script.
pub fn of_script(kind: &str, seed: u64, number: u64, share: u64) -> Station {
    let lines = generate::script_of_kind(kind, seed, number).unwrap_or_default().lines;
    let mut interpreter = Interpreter::new(Station::fresh(1, 100, 0));
    for line in &lines[..lines.len() * share as usize / 100] {
        interpreter.answer(line, &mut Vec::new());
    }
    interpreter.yard().clone()
}

/// The image with some of its contents changed and the checks made right.
pub fn resealed(mut contents: Contents, change: impl FnOnce(&mut Contents)) -> Vec<u8> {
    change(&mut contents);
    sealed(&contents)
}
