//! The comparison finds every faulty yard, and the checker of demand 3 those that break
//! it.

mod common;

use common::faulty::{Error, Faulty};
use common::{breaks_demand_3, Inside};
use trials::compare::{compare, Choice};

/// With the kind of scripts that finds them, and how many lines are left at most.
const FAULTY: [(&str, usize, &[Error]); 13] = [
    (
        "leaning",
        13,
        &[
            Error::BalanceOnlyAtTheStart,
            Error::BegunTakenAsSound,
            Error::WaitingIgnored,
            Error::CountedInTheMinuteOfTheEnd,
            Error::StartAtTheClockIsBegun,
            Error::NeighbouringLinesOnly,
            Error::AlwaysKeeps,
            Error::SpentAfterNoRound,
            Error::InventedRounds,
            Error::QueuesBehindTheLastEnd,
            Error::ReportsOnlyOnce,
            Error::FullFromTheStart,
            Error::OneStartForEverybody,
        ],
    ),
    (
        "hurry",
        9,
        &[
            Error::LatestStartCutAtZero,
            Error::LatestStartUnsigned,
            Error::HigherTicketFirst,
            Error::LatenessFromTheClock,
            Error::HurryRefused6,
            Error::HurryRefused7,
        ],
    ),
    (
        "commits",
        6,
        &[
            Error::TakesAnySoundStart,
            Error::GivesTheEarliestStart,
            Error::TakesTheStartShownBefore,
            Error::PreviewTakesATicket,
            Error::PreviewShowsTheLastEnd,
        ],
    ),
    // A full yard and one commit more.
    ("full", 182, &[Error::StartBeforePlaces]),
    (
        "openings",
        1,
        &[
            Error::HalfUp,
            Error::HalfDown,
            Error::RoundedUp,
            Error::RoundedDown,
            Error::RoundedDownAndOpened,
            Error::RefusedBelowAHundred,
        ],
    ),
    (
        "rates",
        13,
        &[
            Error::RateNotInTheBalance,
            Error::SecondHalfOnTheNextLine,
            Error::RateAgainstTheLimitOnly,
            Error::RateAfterDue,
            Error::RateLostByAPlan,
            Error::RateNotShown,
            Error::CapsCountCharges,
            Error::PlacedChargeHidden,
        ],
    ),
    (
        "priority",
        9,
        &[
            Error::NumbersShrink,
            Error::SlackNotCutOff,
            Error::LatestStartBeforeWeight,
            Error::ChargeChosenFirst,
        ],
    ),
    (
        "weights",
        9,
        &[
            Error::WeightRounded,
            Error::OneWrongNumber,
            Error::TableOnePlaceTooFar,
            Error::TableTooLong,
        ],
    ),
    (
        "searches",
        20,
        &[Error::StartAndLastMinuteOnly, Error::CandidateSkipped, Error::WindowNotWidened],
    ),
    (
        "tails",
        12,
        &[
            Error::TailNotInTheBalance,
            Error::TailNotInTheCaps,
            Error::DroppedAtTheEnd,
            Error::LatenessWithTheTail,
            Error::EndShownWithTheTail,
            Error::TailOfARefusedOpening,
            Error::TailBeforeTheBound,
        ],
    ),
    // A place behind the answers is in no line, so `boards.rs` has that error alone.
    (
        "boards",
        4,
        &[
            Error::EqualNeighbours,
            Error::OneTooManyAsked,
            Error::ZeroForNotHeld,
            Error::LookedIsAsked,
            Error::StopsAtNotHeld,
            Error::PlacesBeforeOrder,
        ],
    ),
    (
        "withdraw",
        10,
        &[
            Error::OnlyTheLimitTested,
            Error::OthersReplanned,
            Error::BegunWithdrawn,
            Error::TicketGivenAgain,
            Error::SoundnessBeforeBegun,
            Error::WithdrawnStillDraws,
        ],
    ),
    (
        "feeders",
        12,
        &[
            Error::SiteNotInOrders,
            Error::SiteNotInReplans,
            Error::OthersNotCounted,
            Error::OthersBegunOnly,
            Error::OthersNotInOrders,
            Error::OthersBegunOnlyInOrders,
            Error::SiteAtTheStartOfOrders,
            Error::SiteAtTheStartInReplans,
            Error::SiteAtTheStartsInCause5,
            Error::LastEndOfTheSite,
            Error::LastClearOfTheFeeder,
            Error::SiteNotInCause5,
            Error::LatenessOfTheSite,
            Error::WaitingOfTheSite,
            Error::PlacesForOneFeeder,
            Error::ReportedByFeeder,
            Error::RateNotAgainstTheSite,
            Error::SettingsPastTheCountRead,
            Error::FeederByFeeder,
            Error::SiteLimitFirst,
            Error::CountLast,
            Error::FeederLast,
            Error::FeederZeroTaken,
            Error::FeederPastTheCountTaken,
            Error::SiteLimitOfARefusedOpening,
            Error::TailOfTheFirstFeeder,
            Error::RestOfTheSite,
        ],
    ),
];

fn choice(kind: &str, scripts: u64) -> Choice<'_> {
    Choice { scripts, seed: 7, kind: Some(kind), ..Choice::default() }
}

#[test]
fn the_comparison_finds_every_faulty_yard() {
    for (kind, most, errors) in FAULTY {
        for error in errors {
            let faulty = Inside(|| Faulty::new(*error));
            // All scripts of openings are alike, and long; those of feeders differ most.
            let scripts = match kind {
                "openings" => 1,
                "feeders" => 400,
                _ => 80,
            };
            let failure =
                compare(&faulty, &choice(kind, scripts)).expect_err(&format!("{error:?}"));
            let lines = failure.lines.len();
            assert!(lines <= most, "{error:?} is left with {lines} lines");
            assert!(failure.what.contains("should be"), "{error:?}: {}", failure.what);
        }
    }
}

/// The rounds, boards and withdrawals that the tests make by themselves are those of the rules,
/// where no error is put into them.
#[test]
fn own_rounds_without_an_error() {
    let kinds = ["leaning", "rates", "priority", "weights", "tails", "boards", "withdraw"];
    for kind in kinds.into_iter().chain(["feeders"]) {
        let yard = Inside(|| Faulty::new(Error::OwnRounds));
        let found = compare(&yard, &choice(kind, 40)).map_err(|failure| failure.what);
        assert_eq!(found.map(|summary| summary.scripts), Ok(41), "{kind}");
    }
}

/// Demand 3 alone rejects yards with unsound plans, changed reports or one start
/// for everybody, and accepts those that are sound but useless: "a replan that
/// always keeps", "an order that always queues", "a station full from the start".
#[test]
fn demand_3_finds_what_it_should() {
    let sound = [
        Error::None,
        Error::AlwaysKeeps,
        Error::SpentAfterNoRound,
        Error::InventedRounds,
        Error::QueuesBehindTheLastEnd,
        Error::FullFromTheStart,
        Error::TakesAnySoundStart,
        Error::GivesTheEarliestStart,
        Error::PreviewShowsTheLastEnd,
        Error::CapsCountCharges,
        Error::NumbersShrink,
        Error::LatestStartBeforeWeight,
        Error::ChargeChosenFirst,
        Error::TailNotInTheCaps,
        Error::LatenessWithTheTail,
        Error::TailBeforeTheBound,
    ];
    let unsound = [
        Error::BalanceOnlyAtTheStart,
        Error::WaitingIgnored,
        Error::StartAtTheClockIsBegun,
        Error::NeighbouringLinesOnly,
        Error::ReportsOnlyOnce,
        Error::OneStartForEverybody,
        Error::TakesTheStartShownBefore,
        Error::PreviewTakesATicket,
        Error::RateNotInTheBalance,
        Error::SecondHalfOnTheNextLine,
        Error::RateAgainstTheLimitOnly,
        Error::RateLostByAPlan,
        Error::RateNotShown,
        Error::StartAndLastMinuteOnly,
        Error::CandidateSkipped,
        Error::WindowNotWidened,
        Error::TailNotInTheBalance,
        Error::DroppedAtTheEnd,
        Error::EndShownWithTheTail,
        Error::TailOfARefusedOpening,
    ];
    let found = |error: Error| {
        ["leaning", "commits", "rates", "tails"].iter().any(|kind| breaks_demand_3(kind, error))
    };
    for error in sound {
        assert!(!found(error), "{error:?}");
    }
    for error in unsound {
        assert!(found(error), "{error:?}");
    }
}
