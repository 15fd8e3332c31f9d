//! The reference with one sentence replaced by an error: those that the rules list
//! under "Errors this yard has to catch", the faulty stations that they name under
//! "When the yard takes delivery", and the wrong programs of each request. All else
//! is the reference's.

mod boards;
mod bounds;
mod commits;
mod feeders;
mod lists;
mod priority;
mod rounds;
mod starts;
mod tails;
mod withdrawals;

use trials::reference::{Charge, List, Station};
use trials::yard::{Committed, Found, Moved, Opening, Order, Planned, Refusal, Yard};

#[derive(Clone, Copy, Debug, PartialEq, Eq)]
pub enum Error {
    None,
    // Errors this yard has to catch
    BalanceOnlyAtTheStart,
    BegunTakenAsSound,
    WaitingIgnored,
    CountedInTheMinuteOfTheEnd,
    StartAtTheClockIsBegun,
    NeighbouringLinesOnly,
    // Faulty stations
    AlwaysKeeps,
    SpentAfterNoRound,
    InventedRounds,
    QueuesBehindTheLastEnd,
    ReportsOnlyOnce,
    FullFromTheStart,
    OneStartForEverybody,
    // N1, drivers in a hurry
    LatestStartCutAtZero,
    LatestStartUnsigned,
    /// Among equal latest starts below zero.
    HigherTicketFirst,
    /// As if the due minute had been clock + p.
    LatenessFromTheClock,
    HurryRefused6,
    HurryRefused7,
    // N2, see the minute, then decide
    TakesAnySoundStart,
    GivesTheEarliestStart,
    /// The one of the last preview, whatever came after it.
    TakesTheStartShownBefore,
    PreviewTakesATicket,
    PreviewShowsTheLastEnd,
    /// 16 before 13.
    StartBeforePlaces,
    // N3, balance bound rounded to nearest
    HalfUp,
    HalfDown,
    RoundedUp,
    RoundedDown,
    /// Rounded down, but refused 3 only where the right bound is 0.
    RoundedDownAndOpened,
    /// The right bound, but refused 3 by c × N below 100.
    RefusedBelowAHundred,
    // N4, points with two rates
    RateNotInTheBalance,
    SecondHalfOnTheNextLine,
    /// 18 for a rate above N alone.
    RateAgainstTheLimitOnly,
    /// 17 and 18 after 6.
    RateAfterDue,
    RateLostByAPlan,
    RateNotShown,
    CapsCountCharges,
    /// A placed charge is not seen where the begun ones count for as much.
    PlacedChargeHidden,
    // N5, the paper's own priority
    WeightRounded,
    /// n and P of the charges that are still unplaced.
    NumbersShrink,
    /// A slack below zero becomes a huge one.
    SlackNotCutOff,
    LatestStartBeforeWeight,
    /// The largest weight / p of all that are unplaced, and then its own smallest start.
    ChargeChosenFirst,
    OneWrongNumber,
    /// E(k + 1) for E(k), so that 511 has none.
    TableOnePlaceTooFar,
    /// A number for k = 512.
    TableTooLong,
    // N6, shorter search on busy evenings
    StartAndLastMinuteOnly,
    /// The next candidate is one minute further behind the failing one.
    CandidateSkipped,
    /// What starts behind the charge's own length from the clock on is left out for good.
    WindowNotWidened,
    // N7, contactors that open late
    TailNotInTheBalance,
    TailNotInTheCaps,
    DroppedAtTheEnd,
    LatenessWithTheTail,
    EndShownWithTheTail,
    TailOfARefusedOpening,
    /// 19 before 3.
    TailBeforeTheBound,
    // N10, the board over the exit
    EqualNeighbours,
    /// 181 tickets.
    OneTooManyAsked,
    PlacesBehindCleared,
    ZeroForNotHeld,
    /// The number of tickets as the number looked at.
    LookedIsAsked,
    /// The walk ends at the first ticket that is not held.
    StopsAtNotHeld,
    /// 24 before 23.
    PlacesBeforeOrder,
    // N11, withdrawing an order
    OnlyTheLimitTested,
    OthersReplanned,
    BegunWithdrawn,
    /// Where it was the last one.
    TicketGivenAgain,
    /// 26 before 25.
    SoundnessBeforeBegun,
    /// It is counted in the search for starts.
    WithdrawnStillDraws,
    PlaceNotFreed,
    // N14, several feeders on one contract
    SiteNotInOrders,
    SiteNotInReplans,
    /// W is held against the feeder's own charges alone, in replans.
    OthersNotCounted,
    /// Waiting charges of other feeders are left out, as if they could still move, in replans.
    OthersBegunOnly,
    /// The same two for orders.
    OthersNotInOrders,
    OthersBegunOnlyInOrders,
    /// W is tested in the first minute of the charge alone.
    SiteAtTheStartOfOrders,
    SiteAtTheStartInReplans,
    /// W is tested in the minutes in which waiting charges of the feeder are to start.
    SiteAtTheStartsInCause5,
    /// Cause 4 by the largest s + p of the site.
    LastEndOfTheSite,
    /// Cause 4 by the largest s + p + r of the feeder.
    LastClearOfTheFeeder,
    SiteNotInCause5,
    LatenessOfTheSite,
    /// 13 by the charges of all feeders.
    PlacesOfTheSite,
    /// 10 by the waiting charges of all feeders.
    WaitingOfTheSite,
    /// 9 by 360 places, however many feeders there are.
    PlacesForOneFeeder,
    ReportedByFeeder,
    /// 18 without W.
    RateNotAgainstTheSite,
    SettingsPastTheCountRead,
    /// A 2 of the first feeder before a 1 of the second.
    FeederByFeeder,
    /// 28 before 1.
    SiteLimitFirst,
    /// 27 after the settings of the feeders.
    CountLast,
    /// 29 after 4, 10 and 11.
    FeederLast,
    /// 0 is taken for the first one.
    FeederZeroTaken,
    /// One more than there are is taken for the last one.
    FeederPastTheCountTaken,
    SiteLimitOfARefusedOpening,
    /// r of the first feeder for all.
    TailOfTheFirstFeeder,
    /// 26 by the counts of all feeders, as if they were one.
    RestOfTheSite,
    /// None of these, but the rounds are made as for those in which the error lies.
    OwnRounds,
}

#[derive(Clone)]
pub struct Faulty {
    error: Error,
    station: Station,
    reported: bool,
    /// What the last preview showed.
    shown: Option<(Order, u64)>,
    /// Withdrawn charges that the error does not let go.
    gone: Vec<Charge>,
}

impl Faulty {
    pub fn new(error: Error) -> Faulty {
        let (station, gone) = (Station::fresh(1, 100, 0), Vec::new());
        Faulty { error, station, reported: false, shown: None, gone }
    }

    /// A call of the reference, at which a start equal to the clock is begun if that
    /// is the error.
    fn with_clock<A>(&mut self, latest: u64, call: impl FnOnce(&mut Faulty) -> A) -> A {
        let clock = self.station.clock;
        if self.error != Error::StartAtTheClockIsBegun {
            return call(self);
        }
        self.station.clock = (clock + 1).min(latest).max(clock);
        let raised = self.station.clock;
        let answer = call(self);
        if self.station.clock == raised {
            self.station.clock = clock;
        }
        answer
    }

    /// A replan or an offer, unless the error is about all of them.
    fn plan(
        &mut self,
        feeder: u32,
        call: impl FnOnce(&mut Faulty) -> Result<Planned, Refusal>,
    ) -> Result<Planned, Refusal> {
        if self.station.feeder(feeder).is_none() {
            return Err(29);
        }
        let before = self.station.clone();
        let mut planned = self.with_clock(u64::MAX, call)?;
        if self.error == Error::RateLostByAPlan && planned.cause == 0 {
            self.station.charges.iter_mut().for_each(|charge| charge.rate = 1);
        }
        if self.error == Error::AlwaysKeeps {
            planned = before.keep(feeder, 7, planned.rounds);
            self.station = before;
        }
        if self.error == Error::InventedRounds && planned.rounds > 0 {
            planned.rounds += 1;
        }
        Ok(planned)
    }

    /// The charge that an order asks for, or the refusal.
    fn ordered(&self, order: Order) -> Result<Charge, Refusal> {
        let mut station = self.station.clone();
        if self.error == Error::RateAgainstTheLimitOnly {
            station.feeders.iter_mut().for_each(|feeder| feeder.bound = feeder.limit);
        }
        if self.error == Error::RateNotAgainstTheSite {
            station.site_limit = 720;
        }
        let mut charge = match station.ordered(order) {
            Err(17 | 18) if self.error == Error::RateAfterDue && order.due > 2_000_000 => {
                return Err(6);
            }
            Err(29) if self.error == Error::FeederLast && !(1..=3).contains(&order.line) => {
                return Err(4);
            }
            answer => answer?,
        };
        let met = charge.order + charge.time;
        match self.error {
            Error::FullFromTheStart => return Err(13),
            _ if self.places_gone() => return Err(13),
            Error::PlacesOfTheSite if self.station.charges.len() >= 180 => return Err(13),
            Error::TailOfTheFirstFeeder => charge.tail = self.station.feeders[0].tail,
            Error::HurryRefused6 if charge.due < met => return Err(6),
            Error::HurryRefused7 if charge.due < met => return Err(7),
            Error::LatenessFromTheClock => charge.due = charge.due.max(met),
            _ => (),
        }
        Ok(charge)
    }
}

impl Yard for Faulty {
    fn open(&mut self, opening: &Opening) -> Result<Vec<u32>, Refusal> {
        self.reported = false;
        self.gone.clear();
        self.opened_site(opening)
    }

    fn preview(&mut self, order: Order) -> Result<u64, Refusal> {
        let order = Order { feeder: self.taken_for(order.feeder), ..order };
        let charge = self.ordered(order)?;
        Ok(self.previewed(order, &charge))
    }

    fn commit(&mut self, order: Order, shown: u32) -> Result<Committed, Refusal> {
        let order = Order { feeder: self.taken_for(order.feeder), ..order };
        self.refuse_before(order, shown.into())?;
        let charge = self.ordered(order)?;
        let start = self.committed(order, &charge, shown.into()).ok_or(16u32)?;
        Ok(self.station.accept(charge.starting_at(start)))
    }

    fn move_clock(&mut self, target: u32, report: &mut [u32]) -> Result<Moved, Refusal> {
        let untouched = report.to_vec();
        let mut moved =
            self.with_clock(target.into(), |faulty| faulty.moved_site(target, report))?;
        self.station.clock = target.into();
        moved.dropped += self.drop_at_the_end();
        if self.error == Error::ReportsOnlyOnce && self.reported {
            report.copy_from_slice(&untouched);
            moved.reported = 0;
        }
        self.reported |= moved.reported > 0;
        Ok(moved)
    }

    fn offer(&mut self, feeder: u32, starts: &[u32]) -> Result<Planned, Refusal> {
        let feeder = self.taken_for(feeder);
        self.feeder_last(feeder, 10, starts.is_empty())?;
        self.plan(feeder, |faulty| {
            if faulty.list_refused(feeder, starts.len()) {
                return Err(10);
            }
            let starts = starts.iter().map(|start| u64::from(*start)).collect();
            Ok(faulty.ended(feeder, Ok(starts), 0))
        })
    }

    fn replan_by_latest_start(&mut self, feeder: u32) -> Result<Planned, Refusal> {
        let feeder = self.taken_for(feeder);
        self.plan(feeder, |faulty| {
            let list = faulty.seen(feeder).latest_list(feeder);
            Ok(faulty.ended(feeder, list, 0))
        })
    }

    fn replan_by_lines(&mut self, feeder: u32, allowance: u32) -> Result<Planned, Refusal> {
        let feeder = self.taken_for(feeder);
        self.feeder_last(feeder, 11, (1..=1_000).contains(&allowance))?;
        self.plan(feeder, |faulty| {
            if !(1..=1_000).contains(&allowance) {
                return Err(11);
            }
            let (list, rounds): (List, u32) = match faulty.error {
                Error::SpentAfterNoRound => (Err(2), 0),
                _ => faulty.seen(feeder).lines_list(feeder, allowance),
            };
            Ok(faulty.ended(feeder, list, rounds))
        })
    }

    fn enquire(&self, ticket: u32) -> Result<Found, Refusal> {
        let mut faulty = self.clone();
        if self.error == Error::RateNotShown {
            faulty.station.charges.iter_mut().for_each(|charge| charge.rate = 1);
        }
        let found = faulty.with_clock(u64::MAX, |faulty| faulty.station.enquire(ticket))?;
        Ok(self.shown_end(found))
    }

    fn board(&self, tickets: &[u32], starts: &mut [u32]) -> Result<usize, Refusal> {
        self.shown_board(tickets, starts)
    }

    fn withdraw(&mut self, ticket: u32) -> Result<(), Refusal> {
        self.with_clock(u64::MAX, |faulty| faulty.withdrawn(ticket))
    }
}
