//! Several feeders on one contract (N14): what is the feeder's and what is the site's, the
//! claims of demand 3 about it, and the wrong programs of the request.

mod common;

use common::faulty::{Error, Faulty};
use common::{answers, breaks_demand_3, caught, expect, fast, lines, reference};
use std::collections::BTreeSet;
use trials::coverage::sites;
use trials::fill::fill;
use trials::interpret::Interpreter;
use trials::protocol::{read_call, Call};
use trials::reference::Station;
use trials::script::Script;
use trials::yard::{Moved, Opening, Order, Settings, Yard};
use trials::{demand, generate, image, script};

/// Two feeders of one point a line under a site of one point.
const NARROW: &str = "open 2 1 1 100 0 1 100 0\ncommit 1 1 10 60 1 0\n";

/// Case h on the first of two feeders; the other one, whose contactors open 5 minutes late, ends
/// in minute 16 and draws up to minute 20.
const LATE: &str = "open 2 720 1 100 0 1 100 5\ncommit 1 1 10 60 1 0\ncommit 1 1 10 15 1 10\n\
                    commit 2 1 16 60 1 0\n";

fn last(text: &str, expected: &[&str]) {
    let all = answers(reference(), text);
    expect(text, &all.iter().map(String::as_str).collect::<Vec<_>>());
    assert_eq!(all[all.len() - expected.len()..], *expected, "{text}");
}

/// "Refusals 1, 2, 3 and 19 are each given if any feeder up to the count meets the condition;
/// settings past the count are not read. Refused: 27, before 1 [..]; 28, after 19".
#[test]
fn openings() {
    last("open 4 1 1 100 0 2 50 1 3 67 2 60 100 5", &["open 0 1 1 2 60"]);
    last("open 3 720 1 100 0 2 50 1 3 67 2 61 101 6", &["open 0 1 1 2"]);
    last("open 1 720 5 20 0 0 0 0\nopen 2 720 5 20 0", &["open 0 1", "refused 1"]);
    last("open 0 0 0 101 6\nopen 5 720 5 20 0\nopen 4294967295 1 5 20 0", &["refused 27"; 3]);
    last("open 2 721 5 101 6 0 50 0", &["refused 1"]);
    last("open 2 721 5 10 6 5 101 0", &["refused 2"]);
    last("open 2 721 5 20 6 5 10 0", &["refused 3"]);
    last("open 2 721 5 20 0 5 20 6", &["refused 19"]);
    last("open 1 0 5 20 5\nopen 1 721 5 20 5\nopen 1 4294967295 5 20 5", &["refused 28"; 3]);
    last("open 1 1 60 100 5\nopen 1 720 60 100 5", &["open 0 60"; 2]);
}

/// "Beside a refused opening [..] stand one feeder and W 720": three lines draw at once, and
/// there is no feeder 2.
#[test]
fn beside_a_refused_opening() {
    let text = "open 2 1 1 100 0 1 100 6\ncommit 1 1 5 9 1 0\ncommit 1 2 5 9 1 0\n\
                commit 1 3 5 9 1 0\nlatest 2\nmove 1 360";
    let mut expected = vec!["refused 19", "ticket 1 start 0", "ticket 2 start 0"];
    expected.extend(["ticket 3 start 0", "refused 29", "moved 3 dropped 0 1 0 2 0 3 0"]);
    expect(text, &expected);
}

/// "29, before 4, 10 and 11, no such feeder"
#[test]
fn no_such_feeder() {
    for feeder in [0, 3, 4, 257, 65_537, u32::MAX] {
        let text = format!(
            "{NARROW}preview {feeder} 4 0 9 3\ncommit {feeder} 1 5 9 1 10\noffer {feeder}\n\
             offer {feeder} 1 2\nlatest {feeder}\nlines {feeder} 5\nlines {feeder} 0"
        );
        last(&text, &["refused 29"; 7]);
    }
}

/// "An order's start must keep its feeder sound and the site within W."
#[test]
fn orders_wait_for_the_site() {
    last(&format!("{NARROW}preview 2 2 10 60 1\npreview 1 2 10 60 1"), &["start 10"; 2]);
    // A gap of three minutes takes three and no more.
    let text = format!("{NARROW}commit 2 2 3 60 1 10\ncommit 2 2 10 60 1 13\nwithdraw 2\n");
    last(&format!("{text}preview 1 3 3 60 1\npreview 1 3 4 60 1"), &["start 10", "start 23"]);
    // A rate of 2 needs two of the site.
    let text = "open 2 3 2 100 0 2 100 2\ncommit 2 1 10 60 2 0\npreview 1 1 10 60 2\n\
                preview 1 1 10 60 1";
    last(text, &["start 12", "start 0"]);
}

/// "Refusal 18 also covers a rate above W."
#[test]
fn rates_above_the_site_limit() {
    last("open 1 1 2 100 0\npreview 1 1 5 9 2\npreview 1 1 5 2000001 2", &["refused 18"; 2]);
    last("open 1 2 2 100 0\npreview 1 1 5 9 2", &["start 0"]);
}

/// "Refusals 10 and 13 look at the feeder."
#[test]
fn places_of_each_feeder() {
    let full = |feeder: u32| format!("commit {feeder} 1 1 9 1 ?\n").repeat(180);
    let text = format!("open 2 720 60 100 0 60 100 0\n{}preview 1 1 1 9 1\n", full(1));
    let text = format!("{text}preview 2 1 1 9 1\n{}preview 2 1 1 9 1\noffer 2", full(2));
    let filled = script::show(&script::join(&fill(reference(), &lines(&text))));
    for answers in [answers(reference(), &filled), answers(fast(), &filled)] {
        assert_eq!(answers[181..183], ["refused 13", "start 0"]);
        assert_eq!(answers[363..], ["refused 13", "refused 10"]);
    }
    last(
        &format!("{LATE}offer 2 0 0\noffer 2 0 0 0\noffer 2 0"),
        &["refused 10", "refused 10", "plan 7 0 0 0"],
    );
}

/// "Refusal 9 requires 360 places for each feeder", and the report goes "by start, then ticket"
/// over the site; what is dropped is that of the site, each with its own r.
#[test]
fn reports_of_the_site() {
    let text = "open 3 720 1 100 0 1 100 0 1 100 2\ncommit 3 1 2 9 1 0\ncommit 1 1 2 9 1 0\n\
                commit 2 1 1 9 1 0\ncommit 2 1 1 9 1 1\ncommit 3 1 2 9 1 4\ncommit 1 1 2 9 1 2\n";
    let moved = "moved 6 dropped 5 1 0 2 0 3 0 4 1 6 2 5 4";
    last(&format!("{text}move 6 1079\nmove 6 1080"), &["refused 9", moved]);
    last(
        &format!("{text}move 6 1080\nenquire 5\nmove 8 1080"),
        &["charging 4 6 1", "moved 0 dropped 1"],
    );
}

fn report_list<Y: Yard>(mut yard: Y) {
    let feeders = vec![Settings { limit: 1, percent: 100, tail: 0 }; 4];
    yard.open(&Opening { count: 4, site_limit: 720, feeders }).unwrap();
    for feeder in [4, 2] {
        yard.commit(Order { feeder, line: 1, time: 5, due: 9, rate: 1 }, 0).unwrap();
    }
    let untouched: Vec<u32> = (0..1_500).map(|place| 7 * place + 1).collect();
    let mut list = untouched.clone();
    assert_eq!(yard.move_clock(1, &mut list[..1_439]), Err(9));
    assert_eq!(list, untouched);
    assert_eq!(yard.move_clock(1, &mut list[..1_440]), Ok(Moved { reported: 2, dropped: 0 }));
    assert_eq!(list[..4], [1, 0, 2, 0]);
    assert_eq!(list[4..], untouched[4..]);
}

#[test]
fn report_lists_are_left_alone() {
    report_list(reference());
    report_list(fast());
}

/// "A replan touches one feeder and places no charge where the site would pass W, counting other
/// feeders' charges, all begun ones and those placed so far."
#[test]
fn replans_beside_another_feeder() {
    let text = "open 2 2 2 100 0 2 100 0\ncommit 2 3 10 60 2 0\ncommit 1 1 10 60 2 10\n\
                commit 1 1 10 15 2 20\n";
    for replan in ["latest 1", "lines 1 1"] {
        let rounds = if replan == "latest 1" { 0 } else { 1 };
        let plan = format!("plan 0 15 5 {rounds}");
        let text = format!("{text}{replan}\nenquire 1\nenquire 2\nenquire 3");
        last(&text, &[&plan, "waiting 0 2", "waiting 20 2", "waiting 10 2"]);
    }
    // The other feeder's charge waits too, and is counted where it waits.
    let text = "open 2 1 1 100 0 1 100 0\ncommit 1 1 5 60 1 0\ncommit 2 1 5 60 1 5\n\
                commit 1 1 5 5 1 10\nlatest 1\nenquire 1\nenquire 2\nenquire 3";
    last(text, &["plan 0 10 0 0", "waiting 10 1", "waiting 5 1", "waiting 0 1"]);
}

/// The lines of a round share W: one that is placed takes the room of the next ones.
#[test]
fn lines_share_the_site() {
    let text = "open 1 2 1 100 0\ncommit 1 1 10 60 1 0\ncommit 1 2 10 60 1 0\n\
                commit 1 3 5 60 1 10\ncommit 1 1 5 3 1 10\nlines 1 1\nenquire 4\nenquire 1\nenquire 3";
    last(text, &["plan 0 12 2 1", "waiting 0 1", "waiting 5 1", "waiting 10 1"]);
}

/// "Cause 4 compares the largest s + p + r of the site, cause 5 includes W, lateness is the
/// feeder's."
#[test]
fn causes() {
    last(&format!("{LATE}offer 1 12 0"), &["plan 4 5 5 0"]);
    last(&format!("{LATE}offer 1 11 0\nenquire 1"), &["plan 0 5 0 0", "waiting 11 1"]);
    let text = "open 2 2 1 100 0 1 100 0\ncommit 2 1 9 0 1 0\ncommit 2 2 9 0 1 0\n\
                commit 1 1 5 0 1 9\noffer 1 0\noffer 1 10\nlatest 2\nlatest 1";
    last(text, &["plan 5 14 14 0", "plan 4 14 14 0", "plan 7 18 18 0", "plan 7 14 14 0"]);
    // 5 anywhere comes before 6 anywhere, be it for W.
    let text = "open 2 3 2 50 0 3 100 0\ncommit 2 1 30 0 2 5\n";
    let text = text.replace(" 5\n", " 0\n")
        + "commit 1 1 5 0 1 0\ncommit 1 1 5 0 1 5\n\
                commit 1 2 5 0 1 10\noffer 1 0 0 5";
    last(&text, &["plan 5 30 30 0"]);
}

/// An offer of the first feeder leaves it in balance and the site above W; one out of balance is
/// told 6.
#[test]
fn the_feeder_alone_is_to_be_in_balance() {
    let text = "open 2 720 2 50 0 2 50 0\ncommit 1 1 9 60 1 0\ncommit 1 1 9 0 1 9\n\
                commit 2 2 9 60 1 0\ncommit 2 3 9 60 1 0\noffer 1 0 0";
    last(text, &["plan 6 18 18 0"]);
}

/// Enquiries, boards and withdrawals go over the site; 26 looks at the rest of the feeder.
#[test]
fn calls_over_the_site() {
    let text = "open 2 720 2 50 0 2 50 0\ncommit 1 1 9 60 1 0\ncommit 2 2 9 60 1 0\n\
                commit 1 2 9 60 1 0\ncommit 1 3 9 60 1 0\ncommit 1 1 9 60 1 0\n";
    last(
        &format!("{text}withdraw 3\nwithdraw 2\nenquire 2"),
        &["refused 26", "withdrawn", "refused 15"],
    );
    last(&format!("{text}board 3 2 4 9"), &["board 5 0 0 4294967295"]);
    last(&format!("{text}board 2 1 2"), &["board 2 0 0"]);
    last(&format!("{text}move 1 720\nenquire 2\nwithdraw 2"), &["charging 0 9 1", "refused 25"]);
}

#[test]
fn openings_refused_otherwise() {
    let text = "open 1 720 5 20 0 61 20 0";
    caught(Error::SettingsPastTheCountRead, text, "open 0 1", "refused 1");
    let text = "open 2 720 5 101 0 61 20 0";
    caught(Error::FeederByFeeder, text, "refused 1", "refused 2");
    caught(Error::SiteLimitFirst, "open 1 721 61 20 0", "refused 1", "refused 28");
    caught(Error::CountLast, "open 5 720 61 20 0", "refused 27", "refused 1");
    let text = "open 1 1 61 20 0\ncommit 1 1 5 9 1 0\npreview 1 2 5 9 1";
    caught(Error::SiteLimitOfARefusedOpening, text, "start 0", "start 5");
}

#[test]
fn calls_refused_otherwise() {
    caught(Error::FeederLast, "preview 2 4 5 9 1", "refused 29", "refused 4");
    caught(Error::FeederLast, "offer 2 0", "refused 29", "refused 10");
    caught(Error::FeederLast, "lines 2 0", "refused 29", "refused 11");
    let text = "open 1 1 2 100 0\npreview 1 1 5 9 2";
    caught(Error::RateNotAgainstTheSite, text, "refused 18", "start 0");
    let text = format!("{LATE}offer 2 0");
    caught(Error::WaitingOfTheSite, &text, "plan 7 0 0 0", "refused 10");
    let text = format!("{LATE}move 1 360");
    caught(Error::PlacesForOneFeeder, &text, "refused 9", "moved 2 dropped 0 1 0 3 0");
    let text = "open 2 720 2 50 0 2 50 0\ncommit 1 1 9 60 1 0\ncommit 2 2 9 60 1 0\n\
                commit 2 3 9 60 1 0\ncommit 1 2 9 60 1 0\ncommit 1 3 9 60 1 0\n\
                commit 1 1 9 60 1 0\nwithdraw 4";
    caught(Error::RestOfTheSite, text, "refused 26", "withdrawn");
}

/// 0 and one more than there are, in every call that names a feeder.
#[test]
fn feeders_that_there_are_not() {
    let taken = [
        ("preview F 2 10 60 1", "start 10"),
        ("commit F 2 10 60 1 10", "ticket 2 start 10"),
        ("latest F", "plan 7 0 0 0"),
        ("lines F 5", "plan 7 0 0 1"),
    ];
    for (error, feeder) in [(Error::FeederZeroTaken, "0"), (Error::FeederPastTheCountTaken, "3")] {
        for (call, wrong) in taken {
            let text = format!("{NARROW}{}", call.replace('F', feeder));
            caught(error, &text, "refused 29", wrong);
        }
    }
    caught(Error::FeederZeroTaken, &format!("{NARROW}offer 0 0"), "refused 29", "plan 7 0 0 0");
    let text = format!("{NARROW}offer 3");
    caught(Error::FeederPastTheCountTaken, &text, "refused 29", "plan 7 0 0 0");
}

/// 180 on one feeder, and a place on the other.
#[test]
fn places_refused_otherwise() {
    let full = "commit 1 1 1 9 1 ?\n".repeat(180);
    let text = format!("open 2 720 60 100 0 60 100 0\n{full}preview 2 1 1 9 1");
    let filled = script::show(&script::join(&fill(reference(), &lines(&text))));
    caught(Error::PlacesOfTheSite, filled.trim_end(), "start 0", "refused 13");
}

#[test]
fn sites_counted_otherwise() {
    let text = format!("{NARROW}preview 2 2 10 60 1");
    caught(Error::SiteNotInOrders, &text, "start 10", "start 0");
    caught(Error::OthersNotInOrders, &text, "start 10", "start 0");
    caught(Error::OthersBegunOnlyInOrders, &text, "start 10", "start 0");
    let text = "open 2 2 2 100 0 2 100 0\ncommit 2 3 10 60 2 0\ncommit 1 1 10 60 2 10\n\
                commit 1 1 10 15 2 20\nlatest 1";
    caught(Error::SiteNotInReplans, text, "plan 0 15 5 0", "plan 5 15 15 0");
    caught(Error::OthersNotCounted, text, "plan 0 15 5 0", "plan 5 15 15 0");
    caught(Error::OthersBegunOnly, text, "plan 0 15 5 0", "plan 5 15 15 0");
    let text = format!("{NARROW}commit 2 1 5 0 1 10\noffer 2 0");
    caught(Error::SiteNotInCause5, &text, "plan 5 15 15 0", "plan 0 15 5 0");
}

/// "places no charge where the site would pass W": in all of its minutes, and not in the first
/// one alone.
#[test]
fn sites_tested_at_the_start() {
    // Three minutes are free, and four are wanted.
    let text = format!("{NARROW}commit 2 2 3 60 1 10\ncommit 2 2 10 60 1 13\nwithdraw 2\n");
    let text = format!("{text}preview 1 3 4 60 1");
    caught(Error::SiteAtTheStartOfOrders, &text, "start 23", "start 10");
    // The other feeder's charge begins in minute 3.
    let text = "open 2 1 1 100 0 1 100 0\ncommit 1 1 3 60 1 0\ncommit 2 1 5 60 1 3\n\
                commit 1 1 4 4 1 8\n";
    let error = Error::SiteAtTheStartInReplans;
    caught(error, &format!("{text}latest 1"), "plan 7 8 8 0", "plan 5 8 8 0");
    caught(error, &format!("{text}lines 1 1"), "plan 7 8 8 1", "plan 5 8 8 1");
    let text = format!("{text}offer 1 8 0");
    caught(Error::SiteAtTheStartsInCause5, &text, "plan 5 8 8 0", "plan 0 8 0 0");
}

#[test]
fn plans_judged_otherwise() {
    let text = format!("{LATE}offer 1 11 0");
    caught(Error::LastEndOfTheSite, &text, "plan 0 5 0 0", "plan 4 5 5 0");
    caught(Error::LastClearOfTheFeeder, &text, "plan 0 5 0 0", "plan 4 5 5 0");
    let text = format!("{LATE}commit 2 1 9 0 1 21\nlatest 1");
    caught(Error::LatenessOfTheSite, &text, "plan 0 5 0 0", "plan 0 35 30 0");
}

#[test]
fn feeders_mixed_up() {
    let text = "open 2 720 1 100 0 1 100 5\ncommit 2 1 5 9 1 0\npreview 2 1 5 9 1";
    caught(Error::TailOfTheFirstFeeder, text, "start 10", "start 5");
    let text = "open 2 720 1 100 0 1 100 0\ncommit 2 1 5 9 1 0\ncommit 1 1 5 9 1 0\nmove 1 720";
    let (right, wrong) = ("moved 2 dropped 0 1 0 2 0", "moved 2 dropped 0 2 0 1 0");
    caught(Error::ReportedByFeeder, text, right, wrong);
}

/// What is sound in every minute of the site, but another answer than the rules give, does not
/// break demand 3; a site above its limit, and tails of another feeder, do.
#[test]
fn demand_3_finds_what_it_should() {
    let sound = [
        Error::None,
        Error::SiteNotInReplans,
        Error::OthersNotCounted,
        Error::SiteAtTheStartInReplans,
        Error::LastClearOfTheFeeder,
        Error::LatenessOfTheSite,
        Error::ReportedByFeeder,
        Error::WaitingOfTheSite,
        Error::FeederByFeeder,
        Error::SettingsPastTheCountRead,
    ];
    for error in sound {
        assert!(!breaks_demand_3("feeders", error), "{error:?}");
    }
    let unsound = [
        Error::SiteNotInOrders,
        Error::OthersNotInOrders,
        Error::OthersBegunOnlyInOrders,
        Error::SiteAtTheStartOfOrders,
        Error::SiteNotInCause5,
        Error::SiteAtTheStartsInCause5,
        Error::FeederZeroTaken,
        Error::FeederPastTheCountTaken,
        Error::TailOfTheFirstFeeder,
    ];
    for error in unsound {
        assert!(breaks_demand_3("feeders", error), "{error:?}");
    }
}

/// What the checker says where one of the answers is another one.
fn falsified(text: &str, place: usize, wrong: &str) -> Result<(), String> {
    let mut answers = script::reference_answers(&lines(text));
    assert_eq!(demand::check(&lines(text), &answers), Ok(()));
    answers[place] = wrong.as_bytes().to_vec();
    demand::check(&lines(text), &answers).map_err(|broken| broken.what)
}

/// "The every-minute guarantee holds for each feeder, with W and the ceiling taken over the
/// site".
#[test]
fn demand_3_over_a_site() {
    let text = "open 2 3 2 100 0 2 50 4\ncommit 1 1 10 60 2 0\ncommit 2 1 10 60 1 0\n\
                commit 2 1 10 60 1 14\ncommit 1 2 5 60 1 10\nmove 1 720\nenquire 2\nenquire 3\n\
                enquire 4\nboard 4 1 2 3 4";
    let fails = |place, wrong: &str| falsified(text, place, wrong).expect_err(wrong);
    assert_eq!(fails(0, "open 0 2"), "'open 0 2' is no answer to this call");
    // The board has another start for it, but where they agree the counts tell.
    let moved_up = |wrong: &str, board: &str| {
        let mut answers = script::reference_answers(&lines(text));
        let place = if wrong.ends_with("13 1") { 7 } else { 8 };
        answers[place] = wrong.as_bytes().to_vec();
        answers[9] = board.as_bytes().to_vec();
        demand::check(&lines(text), &answers).map_err(|broken| broken.what)
    };
    let balance = moved_up("waiting 13 1", "board 4 0 0 13 10");
    assert_eq!(balance, Err("minute 13 has counts [2, 0, 0] on feeder 2".to_string()));
    let site = moved_up("waiting 9 1", "board 4 0 0 14 9");
    assert_eq!(site, Err("minute 9 has 4 on the site of 3".to_string()));
    // 10 + 5 on feeder 1, and 14 for each of two orders on feeder 2: 43.
    assert_eq!(moved_up("waiting 38 1", "board 4 0 0 14 38"), Ok(()));
    let late = moved_up("waiting 39 1", "board 4 0 0 14 39");
    assert_eq!(late, Err("ticket 4 ends in 44, after 43".to_string()));
    // In its tail ticket 2 is charging; of feeder 1 it would be gone.
    let text = "open 2 3 2 100 0 2 50 4\ncommit 2 1 10 60 1 0\nmove 13 720\nenquire 1";
    let gone = falsified(text, 3, "refused 15");
    assert!(gone.is_err_and(|what| what.contains("ticket 1")));
    let taken = falsified("commit 2 1 5 9 1 0", 0, "ticket 1 start 0");
    assert_eq!(taken, Err("an order of feeder 2 is taken".to_string()));
}

/// "Save, restore and the bus serve a site of one feeder: block 0 gains W (32 bits) last".
#[test]
fn images_of_one_feeder() {
    let mut yard = Interpreter::new(reference());
    lines("open 1 515 2 100 0\ncommit 1 1 10 60 1 0").iter().for_each(|line| {
        yard.answer(line, &mut Vec::new());
    });
    let mut saved = vec![0; image::BYTES];
    assert_eq!(image::save(yard.yard(), &[0; image::BYTES], &mut saved), Ok(5));
    assert_eq!(saved[24..28], [3, 2, 0, 0]);
    assert_eq!(image::restore(&saved).as_ref(), Ok(yard.yard()));
    yard.answer(b"open 2 515 2 100 0 2 100 0", &mut Vec::new());
    let before = saved.clone();
    assert_eq!(image::save(yard.yard(), &[0; 7], &mut saved), Err(20));
    assert_eq!(image::save(yard.yard(), &[0; image::BYTES], &mut saved[..9]), Err(20));
    assert_eq!(image::save(yard.yard(), &[0; image::BYTES], &mut saved), Err(22));
    assert_eq!(saved, before);
    let (refusal, station) = image::restored(&[0; image::BYTES]);
    assert_eq!((refusal, station), (Some(22), Station::fresh(1, 100, 0)));
    assert_eq!((Station::fresh(1, 100, 0).site_limit, reference().feeders.len()), (720, 1));
}

/// With one feeder and W 720 the site is in nobody's way.
#[test]
fn one_feeder_with_the_widest_site() {
    let text = "open 1 720 60 100 0\ncommit 1 1 5 9 2 0\ncommit 1 2 5 9 2 0\nlatest 1\nlines 1 1";
    let expected = answers(reference(), text);
    for error in [Error::SiteNotInOrders, Error::SiteNotInReplans, Error::LatenessOfTheSite] {
        assert_eq!(answers(Faulty::new(error), text), expected, "{error:?}");
    }
}

/// What a call has to do with the site is told as it is.
#[test]
fn tallies_of_sites() {
    let seen = |text: &str| {
        let script = Script { lines: lines(text), ..Script::default() };
        let seen = sites::seen(&script);
        seen.iter().map(|sort| sort.replace("site: ", "")).collect::<Vec<_>>()
    };
    let alone = "an order that W leaves alone";
    // The second one waits for the other feeder's charge, the third one for its own line.
    let text = format!("{NARROW}commit 2 2 5 60 1 10\npreview 1 1 5 60 1");
    let both = ["an order waits for W", "an order waits for other feeders"];
    assert_eq!(seen(&text), [["feeders: 2", alone].as_slice(), &both].concat());
    let text = "open 1 1 1 100 0\ncommit 1 1 5 60 1 0\ncommit 1 1 5 60 1 5\ncommit 1 2 5 60 1 10";
    let lines = "an order waits for the lines of its own feeder under W";
    assert_eq!(seen(text), ["feeders: 1", alone, alone, "an order waits for W", lines]);
    // Ticket 3 goes to minute 10 and not to 0, where the other feeder fills W.
    let text = "open 2 2 2 100 0 2 100 0\ncommit 2 3 10 60 2 0\ncommit 1 1 10 60 2 10\n\
                commit 1 1 10 15 2 20\nlatest 1\noffer 1 0 0\nlatest 2\nlines 3 1";
    let way = ["a plan gives way to W", "a plan gives way to W and is taken"];
    let beside = ["a plan beside others that fill W", "a plan beside others that fill W is taken"];
    let mut expected = vec!["feeders: 2", alone];
    expected.extend(both.iter().chain(&both).chain(&way).chain(&beside));
    // An offer above W and above the limit is told 5 with W and without it; for feeder 2 the
    // first one fills W.
    expected.extend([beside[0], beside[0]]);
    assert_eq!(seen(text), expected);
}

/// What the kind is meant for is in it.
#[test]
fn sites_of_all_sorts_occur() {
    let mut seen = BTreeSet::new();
    for number in 0..400 {
        let mut yard = Interpreter::new(reference());
        for line in generate::script_of_kind("feeders", 1, number).unwrap().lines {
            let before = yard.yard().clone();
            let mut answer = Vec::new();
            yard.answer(&line, &mut answer);
            let call = read_call(&line).ok().flatten();
            note(&before, yard.yard(), call, &script::show(&answer), &mut seen);
        }
    }
    assert_eq!(seen.len(), 4 + 3 + 6 + 3 + 3 + 3 + 2 + 2 + 4, "{seen:#?}");
}

fn note(
    before: &Station,
    after: &Station,
    call: Option<Call>,
    answer: &str,
    seen: &mut BTreeSet<String>,
) {
    let count = before.feeders.len();
    let mut see = |holds: bool, what: &str| {
        seen.extend(holds.then(|| what.to_string()));
    };
    let refused = answer.starts_with("refused");
    match call {
        Some(Call::Open { opening }) => {
            let Opening { count, site_limit, feeders } = &opening;
            let past = feeders.iter().skip(*count as usize);
            let bad = |feeder: &Settings| feeder.limit > 60 || feeder.tail > 5;
            see(!refused, &format!("{count} feeders"));
            see([0, 5].contains(count), &format!("a count of {count}"));
            see(*count == u32::MAX, "a huge count");
            let edges = [0, 1, 719, 720, 721];
            see(edges.contains(site_limit), &format!("a site limit of {site_limit}"));
            see(*site_limit == u32::MAX, "a huge site limit");
            see(feeders.len() < *count as usize && *count <= 4, "feeders that are not given");
            see(!refused && past.clone().any(bad), "settings past the count that are bad");
            let tails: BTreeSet<u32> = feeders.iter().map(|feeder| feeder.tail).collect();
            see(!refused && tails.len() > 2, "three different tails");
        }
        Some(Call::Preview { order }) if !refused => see_start(before, order, answer, &mut see),
        Some(Call::Move { places, .. }) => {
            let enough = 360 * count as u32;
            see(count > 1 && places == enough - 1, "one place too few");
            see(count > 1 && places == enough && !refused, "as many places as needed");
            see(count > 1 && places == 360, "places for one feeder");
        }
        Some(Call::Latest { feeder } | Call::Lines { feeder, .. } | Call::Offer { feeder, .. }) => {
            see(feeder == 0, "feeder 0");
            see(feeder as usize == count + 1, "one feeder too many");
            see_plan(before, after, feeder, answer, &mut see);
        }
        Some(Call::Withdraw { ticket }) if answer == "withdrawn" => {
            let feeder = before.charge(ticket).map_or(0, |charge| charge.feeder);
            see(feeder > 1, "a withdrawal on another feeder than the first");
        }
        Some(Call::Board { tickets, .. }) if !refused => {
            let feeders: BTreeSet<u32> = tickets
                .iter()
                .filter_map(|ticket| before.charge(*ticket))
                .map(|charge| charge.feeder)
                .collect();
            see(feeders.len() > 2, "a board of three feeders");
        }
        _ => (),
    }
}

/// Whether W is what an order waits for.
fn see_start(before: &Station, order: Order, answer: &str, see: &mut impl FnMut(bool, &str)) {
    let wide = Station { site_limit: 720, ..before.clone() }.preview(order);
    let start: u64 = answer.rsplit(' ').next().and_then(|start| start.parse().ok()).unwrap_or(0);
    let several = before.feeders.len() > 1;
    see(several && wide.is_ok_and(|wide| wide < start), "an order that waits for the site");
    see(several && wide == Ok(start), "an order that the site leaves alone");
    see(!several && wide.is_ok_and(|wide| wide < start), "one feeder under a site limit");
}

/// What the site has to do with a plan.
fn see_plan(
    before: &Station,
    after: &Station,
    feeder: u32,
    answer: &str,
    see: &mut impl FnMut(bool, &str),
) {
    if !answer.starts_with("plan") || before.feeders.len() < 2 {
        return;
    }
    let [held, taken] = [before, after].map(|station| {
        let ends = station.charges.iter().map(|charge| charge.end());
        ends.max().unwrap_or(0)
    });
    see(answer.starts_with("plan 0") && taken > held, "a plan that ends later and is taken");
    let moved = |station: &Station| station.charges.iter().filter(|c| c.feeder != feeder).count();
    see(answer.starts_with("plan 0") && moved(before) > 0, "a plan taken beside other feeders");
    see(answer.starts_with("plan 1"), "no start");
    see(answer.starts_with("plan 5"), "a plan above a limit");
}
