//! Demand 3 from calls and answers alone: "Demand 3 is a single claim about the
//! list of calls". There is no station here; what is known of it is what the
//! answers say. Each part quotes the sentence of document 01 that it checks.
//!
//! Starts of waiting orders are known from enquiries, so before a station is
//! left every order that was not reported has to be asked for. A board shows starts too.

mod board;
mod withdrawal;

use crate::protocol::Call;
use crate::script::Line;
use crate::told::{self, Counts, Load, Pair, Site, Told};
use crate::yard;
use std::fmt;

/// What is wrong, and with which answer (the first is 1) it came out.
#[derive(Debug, PartialEq, Eq)]
pub struct Broken {
    pub answer: usize,
    pub what: String,
}

/// How an order is spoken of whose start no answer has told.
const UNKNOWN: &str = "neither reported nor found";

impl Broken {
    /// Nothing speaks against the program: there was an order that nobody asked for.
    pub fn is_unknown(&self) -> bool {
        self.what.ends_with(UNKNOWN)
    }
}

impl fmt::Display for Broken {
    fn fmt(&self, out: &mut fmt::Formatter) -> fmt::Result {
        write!(out, "demand 3 fails at answer {}: {}", self.answer, self.what)
    }
}

/// "an order is accepted at its commit" (N2), "when it is answered with a ticket. Its
/// order minute is the clock at that moment; its line and p are those passed in", and
/// so is its rate.
struct Order {
    /// Its place among the feeders, from 0.
    feeder: usize,
    line: u32,
    time: u64,
    rate: u32,
    /// r of its feeder, for which "a point" counts "as drawing for r minutes after its end"
    /// (N7).
    tail: u64,
    order: u64,
    /// "the one reported by the clock move that passed it"
    reported: Option<u64>,
    /// "and until then the one that an enquiry would give": known only since the
    /// last call that was neither an enquiry nor a board.
    waiting: Option<u64>,
    /// It "has no charge" any more (N11).
    withdrawn: bool,
}

impl Order {
    fn start(&self) -> Option<u64> {
        self.reported.or(self.waiting)
    }

    /// "is finished when s + p + r is at or below the clock" (N7), else held, unless it was
    /// withdrawn.
    fn held(&self, clock: u64) -> bool {
        let finished = self.reported.is_some_and(|start| start + self.time + self.tail <= clock);
        !finished && !self.withdrawn
    }
}

/// What the calls and answers since an opening say.
struct Trace {
    site: Site,
    clock: u64,
    orders: Vec<Order>,
    /// Whether an enquiry or a board was answered since the last other call.
    asked: bool,
}

/// Checks the answers to a script.
pub fn check(lines: &[Line], answers: &[Line]) -> Result<(), Broken> {
    let mut trace = Trace::of(Site::beside_a_refusal());
    let mut answer = 0;
    for pair in told::pairs(lines, answers) {
        answer += 1;
        trace.take(&pair).map_err(|what| Broken { answer, what })?;
    }
    trace.settle().map_err(|what| Broken { answer, what })
}

type Checked = Result<(), String>;

/// One check: the words say what is wrong if it fails.
fn ensure(holds: bool, what: impl FnOnce() -> String) -> Checked {
    if holds {
        Ok(())
    } else {
        Err(what())
    }
}

impl Trace {
    fn of(site: Site) -> Trace {
        Trace { site, clock: 0, orders: Vec::new(), asked: false }
    }

    /// What is no call changes nothing, whatever is answered.
    fn take(&mut self, pair: &Pair) -> Checked {
        match (&pair.call, &pair.answer, &pair.told) {
            (_, None, _) => Err("there is no answer".to_string()),
            (Err(_), ..) => Ok(()),
            (Ok(_), Some(answer), None) => Err(format!("'{answer}' is no answer to this call")),
            (Ok(call), Some(answer), Some(told)) => self.step(call, told, answer),
        }
    }

    fn step(&mut self, call: &Call, told: &Told, answer: &str) -> Checked {
        match call {
            Call::Enquire { ticket } => {
                self.asked = true;
                return self.enquiry(*ticket, told, answer);
            }
            Call::Board { tickets, .. } => {
                self.asked = true;
                return self.board(tickets, told);
            }
            _ => self.leave(matches!(call, Call::Open { .. }))?,
        }
        match (call, told) {
            (Call::Open { opening }, Told::Opened { .. }) => {
                *self = Trace::of(Site::from_opening(opening));
                Ok(())
            }
            // "also from the one beside a refusal", which is the station of 1, 100.
            (Call::Open { .. }, _) => {
                *self = Trace::of(Site::beside_a_refusal());
                Ok(())
            }
            (Call::Commit { order, .. }, Told::Accepted { ticket, .. }) => {
                self.accepted(order, *ticket)
            }
            (Call::Move { target, .. }, Told::Moved { reported, .. }) => {
                self.moved(u64::from(*target), reported)
            }
            (Call::Withdraw { ticket }, Told::Withdrawn) => self.withdrawn(*ticket),
            _ => Ok(()),
        }
    }

    /// Every first part of a list is a list: wherever the enquiries happen to
    /// show all starts, the claim is checked. Before an opening it has to be.
    fn leave(&mut self, opening: bool) -> Checked {
        if opening || (self.asked && self.all_starts_known()) {
            self.settle()?;
        }
        if self.asked {
            self.orders.iter_mut().for_each(|order| order.waiting = None);
        }
        self.asked = false;
        Ok(())
    }

    fn all_starts_known(&self) -> bool {
        self.standing().all(|(_, order)| order.start().is_some())
    }

    /// "tickets are 1, 2, 3 and so on in the order of acceptance"
    fn accepted(&mut self, order: &yard::Order, ticket: u64) -> Checked {
        let next = self.orders.len() as u64 + 1;
        ensure(ticket == next, || format!("ticket {ticket} where {next} is next"))?;
        let feeder = (order.feeder as usize).wrapping_sub(1);
        let own = self.site.feeder(order.feeder);
        let tail = own.ok_or(format!("an order of feeder {} is taken", order.feeder))?.tail;
        ensure((1..=3).contains(&order.line), || {
            format!("an order of line {} is taken", order.line)
        })?;
        self.orders.push(Order {
            feeder,
            line: order.line,
            time: u64::from(order.time),
            rate: order.rate,
            tail,
            order: self.clock,
            reported: None,
            waiting: None,
            withdrawn: false,
        });
        Ok(())
    }

    /// "The clock is the target of the last move not refused"
    fn moved(&mut self, target: u64, reported: &[(u64, u64)]) -> Checked {
        for (ticket, start) in reported {
            self.report(*ticket, *start, target)?;
        }
        self.clock = target;
        Ok(())
    }

    /// "No ticket but theirs has been reported", each at most once, and by "the
    /// clock move that passed it".
    fn report(&mut self, ticket: u64, start: u64, target: u64) -> Checked {
        let clock = self.clock;
        let order = self.order(ticket).ok_or(format!("ticket {ticket} reported, not given"))?;
        ensure(order.reported.is_none(), || format!("ticket {ticket} reported again"))?;
        ensure(!order.withdrawn, || format!("ticket {ticket} reported, withdrawn"))?;
        ensure(clock <= start && start < target, || {
            format!(
                "ticket {ticket} with start {start} reported by a move from {clock} to {target}"
            )
        })?;
        order.reported = Some(start);
        Ok(())
    }

    fn order(&mut self, ticket: u64) -> Option<&mut Order> {
        let place = usize::try_from(ticket.checked_sub(1)?).ok()?;
        self.orders.get_mut(place)
    }

    /// "An enquiry finds a begun order charging until it is finished, with its
    /// reported start, and that start + p as the end; for a finished one the
    /// answer is refusal 15." "Any other order has never been reported, and an
    /// enquiry finds it waiting." "Enquiries show the rate" (N4). It "is finished when
    /// s + p + r is at or below the clock" (N7).
    fn enquiry(&mut self, ticket: u32, told: &Told, answer: &str) -> Checked {
        let clock = self.clock;
        let Some(order) = self.order(u64::from(ticket)) else {
            let refused = matches!(told, Told::Refused(_));
            return ensure(refused, || format!("ticket {ticket} found, not given"));
        };
        let tail = order.tail;
        let found = || format!("ticket {ticket}: {answer}");
        if order.withdrawn {
            return ensure(*told == Told::Refused(15), found);
        }
        match (order.reported, told) {
            (None, Told::Waiting { start, rate }) => {
                let same = order.waiting.is_none_or(|before| before == *start);
                ensure(*start >= clock && same && *rate == order.rate.into(), found)?;
                order.waiting = Some(*start);
                Ok(())
            }
            (Some(reported), Told::Charging { start, end, rate }) => {
                let right =
                    *start == reported && *end == reported + order.time && clock < *end + tail;
                ensure(right && *rate == order.rate.into(), found)
            }
            (Some(start), Told::Refused(15)) => ensure(start + order.time + tail <= clock, found),
            _ => Err(found()),
        }
    }

    /// The claim over the whole list, once all starts are known.
    fn settle(&self) -> Checked {
        for (ticket, order) in self.standing() {
            let start = order.start().ok_or(format!("ticket {ticket} {UNKNOWN}"))?;
            ensure(order.order <= start, || {
                format!("ticket {ticket} ordered in {} starts in {start}", order.order)
            })?;
        }
        self.check_ends()?;
        self.check_counts()
    }

    /// "No charge ends later than the last minute in which an order was accepted
    /// plus the charging times of all accepted orders." "The ceiling on ends gains r for
    /// each accepted order" (N7), and a withdrawn order's "time still counts in the ceiling
    /// on ends" (N11), as does its order minute; "the ceiling taken over the site", each r that
    /// of the order's feeder (N14).
    fn check_ends(&self) -> Checked {
        let Some(last) = self.orders.last() else { return Ok(()) };
        let times = self.orders.iter().map(|order| order.time + order.tail);
        let ceiling = last.order + times.sum::<u64>();
        for (ticket, order) in self.standing() {
            let end = order.start().unwrap_or(0) + order.time;
            ensure(end <= ceiling, || format!("ticket {ticket} ends in {end}, after {ceiling}"))?;
        }
        Ok(())
    }

    /// "in every minute, gone or to come under the plan held, no line has more
    /// than its limit charging and no two lines differ by more than the bound";
    /// "A line's count in a minute takes all accepted orders of the list, dropped
    /// ones too", but not those that were withdrawn (N11); they are "weighted counts" (N4),
    /// in which each is active in "minutes s to s + p + r − 1" (N7). "The every-minute guarantee
    /// holds for each feeder, with W [..] taken over the site" (N14).
    fn check_counts(&self) -> Checked {
        let load = |(_, order): (usize, &Order)| {
            let start = order.start().unwrap_or(0);
            let clear = start + order.time + order.tail;
            let line = order.line as usize - 1;
            Load { feeder: order.feeder, line, start, clear, rate: order.rate }
        };
        let loads: Vec<Load> = self.standing().map(load).collect();
        let counts = told::counts(&loads);
        counts.iter().try_for_each(|(minute, counts)| self.check_minute(*minute, counts))
    }

    fn check_minute(&self, minute: u64, counts: &Counts) -> Checked {
        for (number, (feeder, counts)) in self.site.feeders.iter().zip(counts).enumerate() {
            ensure(feeder.sound(counts), || {
                format!("minute {minute} has counts {counts:?} on feeder {}", number + 1)
            })?;
        }
        let site: i64 = counts.iter().flatten().sum();
        ensure(site <= self.site.limit as i64, || {
            format!("minute {minute} has {site} on the site of {}", self.site.limit)
        })
    }
}
