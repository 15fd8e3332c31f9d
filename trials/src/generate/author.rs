//! Writes a script line by line and carries the reference along, so that the
//! next line can be chosen by what the station holds.
//!
//! Before a station is left, for another opening or at the end, the author asks
//! for its tickets: "until then the one that an enquiry would give" is how the
//! checker of demand 3 learns the starts of waiting orders.

use crate::interpret::Interpreter;
use crate::protocol::{read_call, write_call, Call};
use crate::random::Random;
use crate::reference::{Charge, Feeder, Station};
use crate::script::{Line, Script};
use crate::yard::{Opening, Order};

/// Enough places, for each feeder, for every move that is meant to succeed.
pub const PLACES: u32 = 360;
/// Up to so many orders every ticket is asked for; past it only the held ones
/// and some others.
const ALL_TICKETS: u32 = 400;

pub struct Author {
    pub random: Random,
    /// The feeder that the next orders, offers and replans name; there is one.
    pub feeder: u32,
    interpreter: Interpreter<Station>,
    script: Script,
}

impl Author {
    pub fn new(kind: &'static str, number: u64, random: Random) -> Author {
        let interpreter = Interpreter::new(Station::fresh(1, 100, 0));
        let script = Script { kind, number, ..Script::default() };
        Author { random, feeder: 1, interpreter, script }
    }

    /// With this station in the place of the first.
    pub fn from_station(station: Station, random: Random) -> Author {
        let interpreter = Interpreter::new(station);
        Author { random, feeder: 1, interpreter, script: Script::default() }
    }

    pub fn lines_so_far(self) -> Vec<Line> {
        self.script.lines
    }

    pub fn station(&self) -> &Station {
        self.interpreter.yard()
    }

    /// Writes a line as it stands.
    pub fn line(&mut self, line: Vec<u8>) {
        if matches!(read_call(&line), Ok(Some(Call::Open { .. }))) {
            self.ask_for_tickets();
        }
        let mut answer = Vec::new();
        if self.interpreter.answer(&line, &mut answer) {
            self.script.answers.push(answer);
        }
        self.script.lines.push(line);
    }

    pub fn call(&mut self, call: Call) {
        self.line(write_call(&call).into_bytes());
    }

    /// An opening whose contactors open late at times (N7).
    pub fn open(&mut self, limit: u32, percent: u32) {
        let late = self.random.percent(35);
        let tail = if late { self.random.between(1, 5) as u32 } else { 0 };
        self.open_with_tail(limit, percent, tail);
    }

    pub fn open_with_tail(&mut self, limit: u32, percent: u32, tail: u32) {
        self.open_site(Opening::of_one(limit, percent, tail));
    }

    /// Any opening; orders go to the first feeder, until another one is chosen.
    pub fn open_site(&mut self, opening: Opening) {
        self.call(Call::Open { opening });
        self.feeder = 1;
    }

    pub fn preview(&mut self, order: Order) {
        self.call(Call::Preview { order });
    }

    pub fn commit(&mut self, order: Order, shown: u32) {
        self.call(Call::Commit { order, shown });
    }

    /// The start that a preview would show; of a refused order the clock.
    pub fn shown(&self, order: Order) -> u32 {
        let earliest = |charge| self.station().earliest(&charge) as u32;
        self.station().ordered(order).map_or(self.clock(), earliest)
    }

    /// An order that is committed with the start that a preview would show.
    pub fn take(&mut self, order: Order) {
        self.commit(order, self.shown(order));
    }

    /// Such an order of rate 1.
    pub fn order(&mut self, line: u32, time: u32, due: u32) {
        self.take(Order { feeder: self.feeder, line, time, due, rate: 1 });
    }

    pub fn move_to(&mut self, target: u32) {
        let places = PLACES * self.station().feeders.len() as u32;
        self.call(Call::Move { target, places });
    }

    pub fn move_on(&mut self, minutes: u64) {
        let target = self.clock() + minutes as u32;
        self.move_to(target);
    }

    pub fn offer(&mut self, starts: Vec<u32>) {
        self.call(Call::Offer { feeder: self.feeder, starts });
    }

    pub fn latest(&mut self) {
        self.call(Call::Latest { feeder: self.feeder });
    }

    pub fn lines(&mut self, allowance: u32) {
        self.call(Call::Lines { feeder: self.feeder, allowance });
    }

    pub fn enquire(&mut self, ticket: u32) {
        self.call(Call::Enquire { ticket });
    }

    pub fn board(&mut self, places: u32, tickets: Vec<u32>) {
        self.call(Call::Board { places, tickets });
    }

    pub fn withdraw(&mut self, ticket: u32) {
        self.call(Call::Withdraw { ticket });
    }

    pub fn clock(&self) -> u32 {
        self.station().clock as u32
    }

    /// The feeder that is chosen.
    pub fn own(&self) -> Feeder {
        self.station().feeders[self.feeder as usize - 1]
    }

    /// How many charges it holds.
    pub fn held(&self) -> usize {
        self.station().held(self.feeder).len()
    }

    pub fn waiting(&self) -> Vec<Charge> {
        self.station().waiting(self.feeder)
    }

    /// Asks for the tickets given, for 0 and for the one not yet given.
    pub fn ask_for_tickets(&mut self) {
        let next = self.station().next_ticket;
        if next == 1 {
            return;
        }
        let asked: Vec<u32> = if next <= ALL_TICKETS {
            (0..=next).collect()
        } else {
            let others = (0..50).map(|_| self.random.below(u64::from(next) + 1) as u32);
            let others: Vec<u32> = others.collect();
            let held = self.station().charges.iter().map(|charge| charge.ticket);
            held.chain(others).chain([0, next]).collect()
        };
        for ticket in asked {
            self.enquire(ticket);
        }
    }

    pub fn finish(mut self) -> Script {
        self.ask_for_tickets();
        self.script
    }
}
