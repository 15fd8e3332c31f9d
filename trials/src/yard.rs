//! The calls of document 01, "The calls", and of the requests, as one trait, so that the reference,
//! the fast program and the faulty ones of the tests answer the same protocol.

/// The number of a refusal: "A refusal returns its number alone".
pub type Refusal = u32;

/// What an opening says of one feeder: N, c and r.
#[derive(Clone, Copy, Debug, Default, PartialEq, Eq)]
pub struct Settings {
    pub limit: u32,
    pub percent: u32,
    pub tail: u32,
}

/// "Larger yards have 1 to 4 feeders, each with its own N, c, r and 180 places, under a site
/// limit W" (N14).
#[derive(Clone, Debug, PartialEq, Eq)]
pub struct Opening {
    pub count: u32,
    pub site_limit: u32,
    /// As given, which may be more than the count or fewer.
    pub feeders: Vec<Settings>,
}

impl Opening {
    /// A site of one feeder with the largest site limit, which never binds: no line has more
    /// than 60.
    pub fn of_one(limit: u32, percent: u32, tail: u32) -> Opening {
        let feeders = vec![Settings { limit, percent, tail }];
        Opening { count: 1, site_limit: 720, feeders }
    }

    /// The feeders up to the count: those "that are not given count as 0 0 0", and "settings
    /// past the count are not read".
    pub fn up_to_count(&self) -> impl Iterator<Item = Settings> + '_ {
        let given = self.feeders.iter().copied();
        given.chain(std::iter::repeat(Settings::default())).take(self.count as usize)
    }
}

/// What a driver asks for, in a preview and in the commit of the same order: "an order, offer
/// or replan names its feeder, from 1" (N14).
#[derive(Clone, Copy, Debug, PartialEq, Eq)]
pub struct Order {
    pub feeder: u32,
    pub line: u32,
    pub time: u32,
    pub due: u32,
    pub rate: u32,
}

/// Answer of a commit: "a ticket and exactly that start".
#[derive(Clone, Copy, Debug, PartialEq, Eq)]
pub struct Committed {
    pub ticket: u32,
    pub start: u64,
}

/// Answer of a clock move: "how many were reported, how many dropped".
#[derive(Clone, Copy, Debug, PartialEq, Eq)]
pub struct Moved {
    pub reported: usize,
    pub dropped: usize,
}

/// Answer of an offer and of both replans: "cause, lateness before and after
/// (equal when kept), rounds used (0 but by lines)".
#[derive(Clone, Copy, Debug, PartialEq, Eq)]
pub struct Planned {
    pub cause: u32,
    pub before: u64,
    pub after: u64,
    pub rounds: u32,
}

/// Answer of an enquiry: "waiting with its start, charging with start and end", and
/// "Enquiries show the rate" (N4).
#[derive(Clone, Copy, Debug, PartialEq, Eq)]
pub enum Found {
    Waiting { start: u64, rate: u32 },
    Charging { start: u64, end: u64, rate: u32 },
}

/// "Larger yards have 1 to 4 feeders" (N14).
pub const MOST_FEEDERS: usize = 4;

/// What a board shows for a ticket "not held" (N10).
pub const NOT_HELD: u32 = 4_294_967_295;

/// A place where a station stands; every call works on that station. With N14 it is a site of
/// up to four feeders.
pub trait Yard {
    /// Puts a fresh station in place and answers the bound of each feeder. Beside a refusal
    /// the fresh station of 1, 100 and r = 0 is put in place, with one feeder and W 720
    /// (N14). "Opening takes r, 0 to 5": the minutes for which a point counts as drawing after
    /// its end (N7).
    fn open(&mut self, opening: &Opening) -> Result<Vec<u32>, Refusal>;
    /// "answers the start it would give and changes nothing"; a faulty yard may.
    fn preview(&mut self, order: Order) -> Result<u64, Refusal>;
    /// "takes the same order with the start shown"
    fn commit(&mut self, order: Order, shown: u32) -> Result<Committed, Refusal>;
    fn move_clock(&mut self, target: u32, report: &mut [u32]) -> Result<Moved, Refusal>;
    fn offer(&mut self, feeder: u32, starts: &[u32]) -> Result<Planned, Refusal>;
    fn replan_by_latest_start(&mut self, feeder: u32) -> Result<Planned, Refusal>;
    fn replan_by_lines(&mut self, feeder: u32, allowance: u32) -> Result<Planned, Refusal>;
    fn enquire(&self, ticket: u32) -> Result<Found, Refusal>;
    /// "takes a rising list of 32-bit numbers and writes the start of each to another such
    /// list", and "answers how many it looked at" (N10).
    fn board(&self, tickets: &[u32], starts: &mut [u32]) -> Result<usize, Refusal>;
    /// "A waiting charge is removed, and its place is free" (N11).
    fn withdraw(&mut self, ticket: u32) -> Result<(), Refusal>;
}
