//! A charge as calls and answers tell of it: its order, the starts that it had one after
//! another, the report, the withdrawal. A moment is the number of calls made before it, so that
//! what stood after each call can be told.

use crate::told::Load;

/// A start that the charge had from a moment on, where an answer told it.
#[derive(Clone, Debug, PartialEq, Eq)]
pub struct Held {
    pub from: usize,
    pub start: Option<u64>,
}

/// Something that happened to the charge: at which moment, and in which minute.
#[derive(Clone, Copy, Debug, PartialEq, Eq)]
pub struct Happened {
    pub moment: usize,
    pub minute: u64,
}

#[derive(Clone, Debug, PartialEq, Eq)]
pub struct Charge {
    pub ticket: u64,
    /// From 1, as the order names it.
    pub feeder: u32,
    pub line: u32,
    pub rate: u32,
    pub time: u64,
    pub due: u64,
    /// r of its feeder.
    pub tail: u64,
    pub ordered: Happened,
    pub held: Vec<Held>,
    /// The minute is the start told by the move.
    pub reported: Option<Happened>,
    pub withdrawn: Option<Happened>,
}

/// What a charge is doing, as far as the calls up to a moment tell.
#[derive(Clone, Copy, Debug, PartialEq, Eq)]
pub enum State {
    Waiting,
    Charging,
    Tail,
    Gone,
    Withdrawn,
}

impl State {
    pub fn name(self) -> &'static str {
        match self {
            State::Waiting => "waiting",
            State::Charging => "charging",
            State::Tail => "tail",
            State::Gone => "gone",
            State::Withdrawn => "withdrawn",
        }
    }
}

impl Charge {
    /// The start that was held after the call of a moment, if an answer told it.
    pub fn start_after(&self, moment: usize) -> Option<u64> {
        self.held.iter().rev().find(|held| held.from <= moment)?.start
    }

    /// The last start that was told up to a moment.
    pub fn last_known(&self, moment: usize) -> Option<u64> {
        self.held.iter().rev().filter(|held| held.from <= moment).find_map(|held| held.start)
    }

    pub fn ordered_by(&self, moment: usize) -> bool {
        self.ordered.moment <= moment
    }

    pub fn withdrawn_by(&self, moment: usize) -> bool {
        self.withdrawn.is_some_and(|withdrawn| withdrawn.moment <= moment)
    }

    pub fn begun_by(&self, moment: usize) -> bool {
        self.reported.is_some_and(|reported| reported.moment <= moment)
    }

    /// Whether a plan that is taken now would move it.
    pub fn waits(&self) -> bool {
        self.reported.is_none() && self.withdrawn.is_none()
    }

    pub fn end(&self, start: u64) -> u64 {
        start.saturating_add(self.time)
    }

    /// s + p + r
    pub fn clear(&self, start: u64) -> u64 {
        self.end(start).saturating_add(self.tail)
    }

    pub fn lateness(&self, start: u64) -> u64 {
        self.end(start).saturating_sub(self.due)
    }

    pub fn state(&self, moment: usize, clock: u64) -> State {
        if self.withdrawn_by(moment) {
            return State::Withdrawn;
        }
        match self.reported.filter(|reported| reported.moment <= moment) {
            None => State::Waiting,
            Some(reported) if clock < self.end(reported.minute) => State::Charging,
            Some(reported) if clock < self.clear(reported.minute) => State::Tail,
            Some(_) => State::Gone,
        }
    }

    /// What it counts after a moment: nothing before its order and after its withdrawal.
    pub fn load(&self, moment: usize) -> Option<Load> {
        let start = self.start_after(moment)?;
        let counts = self.ordered_by(moment) && !self.withdrawn_by(moment);
        let clear = self.clear(start);
        let (feeder, line) = (self.feeder as usize - 1, self.line as usize - 1);
        counts.then_some(Load { feeder, line, start, clear, rate: self.rate })
    }

    /// It takes part in the counts with a start that nobody told.
    pub fn unknown(&self, moment: usize) -> bool {
        self.ordered_by(moment) && !self.withdrawn_by(moment) && self.start_after(moment).is_none()
    }

    /// A taken plan: another start, where it is told.
    pub fn replanned(&mut self, moment: usize, start: Option<u64>) {
        self.held.push(Held { from: moment, start });
    }

    /// An answer tells the start. Until the last plan it was the same, so that is where it
    /// counts from; a start that differs from one already told has moved with no plan.
    pub fn learn(&mut self, moment: usize, start: u64) -> Result<(), u64> {
        match self.held.last_mut() {
            Some(Held { start: Some(known), .. }) if *known != start => {
                let known = *known;
                self.held.push(Held { from: moment, start: Some(start) });
                Err(known)
            }
            Some(held) => {
                held.start = Some(start);
                Ok(())
            }
            None => Ok(()),
        }
    }
}
