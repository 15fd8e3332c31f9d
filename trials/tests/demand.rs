//! The checker of demand 3 accepts true answers and finds falsified ones.

mod common;

use common::lines;
use trials::demand;
use trials::script::{self, Line};

const SCRIPT: &str = "open 1 720 2 50 0
commit 1 1 10 60 1 0
commit 1 1 10 15 1 10
commit 1 2 5 60 1 0
move 4 360
commit 1 3 4 60 1 4
move 12 360
commit 1 1 3 20 1 20
commit 1 1 3 20 1 23
enquire 0
enquire 1
enquire 2
enquire 3
enquire 4
enquire 5
enquire 6
enquire 7
";

fn true_answers() -> Vec<Line> {
    script::reference_answers(&lines(SCRIPT))
}

/// The script's answers with one of them replaced; what the checker says.
fn falsified(right: &str, wrong: &str) -> String {
    let mut answers = true_answers();
    let place = answers.iter().position(|answer| script::show(answer) == right);
    let place = place.unwrap_or_else(|| panic!("no answer '{right}'"));
    answers[place] = wrong.as_bytes().to_vec();
    demand::check(&lines(SCRIPT), &answers).expect_err(wrong).what
}

#[test]
fn true_answers_hold() {
    let shown: Vec<String> = true_answers().iter().map(|answer| script::show(answer)).collect();
    let expected = [
        "open 0 1",
        "ticket 1 start 0",
        "ticket 2 start 10",
        "ticket 3 start 0",
        "moved 2 dropped 0 1 0 3 0",
        "ticket 4 start 4",
        "moved 2 dropped 3 4 4 2 10",
        "ticket 5 start 20",
        "ticket 6 start 23",
        "refused 15",
        "refused 15",
        "charging 10 20 1",
        "refused 15",
        "refused 15",
        "waiting 20 1",
        "waiting 23 1",
        "refused 15",
    ];
    assert_eq!(shown, expected);
    assert_eq!(demand::check(&lines(SCRIPT), &true_answers()), Ok(()));
}

#[test]
fn reports() {
    let moved = "moved 2 dropped 3 4 4 2 10";
    // One left out: the enquiry finds the order charging that was never reported.
    assert!(falsified(moved, "moved 1 dropped 3 4 4").contains("charging"));
    // A start one later: the enquiry shows another one.
    assert!(falsified(moved, "moved 2 dropped 3 4 4 2 11").contains("charging"));
    assert!(falsified(moved, "moved 3 dropped 3 4 4 2 10 1 5").contains("again"));
    assert!(falsified(moved, "moved 3 dropped 3 4 4 2 10 9 5").contains("not given"));
    assert!(falsified(moved, "moved 3 dropped 3 4 4 2 10 0 5").contains("not given"));
    assert!(falsified(moved, "moved 2 dropped 3 4 3 2 10").contains("from 4 to 12"));
    assert!(falsified(moved, "moved 2 dropped 3 4 12 2 10").contains("from 4 to 12"));
    assert!(falsified(moved, "moved 3 dropped 3 4 4 2 10").contains("is no answer"));
    assert!(falsified(moved, "refused 8").contains("ticket 1"));
}

#[test]
fn tickets() {
    assert!(falsified("ticket 2 start 10", "ticket 3 start 10").contains("where 2 is next"));
    assert!(falsified("ticket 1 start 0", "refused 13").contains("where 1 is next"));
    assert!(falsified("ticket 6 start 23", "refused 13").contains("not given"));
    // Of a line and a feeder that there are not.
    for (order, what) in [("1 0", "line 0"), ("1 4", "line 4"), ("2 1", "feeder 2")] {
        let text = format!("open 1 720 2 50 0\ncommit {order} 10 60 1 0");
        let answers = lines("open 0 1\nticket 1 start 0");
        let broken = demand::check(&lines(&text), &answers).expect_err(what);
        assert_eq!(broken.what, format!("an order of {what} is taken"));
    }
}

#[test]
fn enquiries() {
    assert!(falsified("charging 10 20 1", "charging 11 21 1").contains("ticket 2"));
    assert!(falsified("charging 10 20 1", "charging 10 21 1").contains("ticket 2"));
    assert!(falsified("charging 10 20 1", "refused 15").contains("ticket 2"));
    assert!(falsified("charging 10 20 1", "waiting 12 1").contains("ticket 2"));
    assert!(falsified("waiting 20 1", "refused 15").contains("ticket 5"));
    assert!(falsified("waiting 20 1", "charging 11 14 1").contains("ticket 5"));
    assert!(falsified("waiting 20 1", "waiting 11 1").contains("ticket 5"));
}

#[test]
fn counts_and_ends() {
    // Ticket 6 in the same minutes as ticket 5 leaves line 3 two behind.
    assert!(falsified("waiting 23 1", "waiting 22 1").contains("counts"));
    // Last order minute 12 and 35 minutes of charging: 47 is the last end.
    let mut answers = true_answers();
    let place = answers.len() - 2;
    answers[place] = b"waiting 44 1".to_vec();
    assert_eq!(demand::check(&lines(SCRIPT), &answers), Ok(()));
    answers[place] = b"waiting 45 1".to_vec();
    let broken = demand::check(&lines(SCRIPT), &answers).unwrap_err();
    assert_eq!(broken.what, "ticket 6 ends in 48, after 47");
}

/// Dropped orders count too: a falsified report far back makes a minute unsound
/// that is long gone.
#[test]
fn minutes_gone() {
    let text =
        "open 1 720 1 100 0\ncommit 1 1 5 5 1 0\ncommit 1 1 5 10 1 5\nmove 20 360\nenquire 1\nenquire 2";
    let mut answers = script::reference_answers(&lines(text));
    assert_eq!(demand::check(&lines(text), &answers), Ok(()));
    answers[3] = b"moved 2 dropped 2 1 0 2 4".to_vec();
    let broken = demand::check(&lines(text), &answers).unwrap_err();
    assert_eq!(broken.what, "minute 4 has counts [2, 0, 0] on feeder 1");
}

/// An order that was neither reported nor asked for leaves the claim open.
#[test]
fn unknown_starts() {
    let text = "commit 1 1 5 5 1 0";
    let answers = script::reference_answers(&lines(text));
    let broken = demand::check(&lines(text), &answers).unwrap_err();
    assert_eq!(broken.what, "ticket 1 neither reported nor found");
    assert!(demand::check(&lines(text), &[]).is_err());
}

/// Each opening ends the claim about the station before it.
#[test]
fn stations_one_after_the_other() {
    let text =
        "commit 1 1 5 5 1 0\nenquire 1\nopen 1 720 61 1 0\ncommit 1 2 5 5 1 0\ncommit 1 2 5 9 1 5\nmove 5 360\n\
                enquire 1\nenquire 2\nopen 1 720 60 100 0\ncommit 1 3 1 1 1 0\nenquire 1";
    let answers = script::reference_answers(&lines(text));
    assert_eq!(demand::check(&lines(text), &answers), Ok(()));
}

/// N4: counts are weighted, and enquiries show the rate that was passed in.
#[test]
fn rates() {
    let text =
        "open 1 720 4 50 0\ncommit 1 1 10 60 2 0\ncommit 1 1 10 60 1 10\nmove 1 360\nenquire 1\nenquire 2";
    let answers = script::reference_answers(&lines(text));
    assert_eq!(demand::check(&lines(text), &answers), Ok(()));
    let falsified = |place: usize, wrong: &str| {
        let mut answers = answers.clone();
        answers[place] = wrong.as_bytes().to_vec();
        demand::check(&lines(text), &answers).expect_err(wrong).what
    };
    assert_eq!(falsified(5, "waiting 9 1"), "minute 9 has counts [3, 0, 0] on feeder 1");
    assert!(falsified(4, "charging 0 10 1").contains("ticket 1"));
    assert!(falsified(5, "waiting 10 2").contains("ticket 2"));
    assert!(falsified(5, "waiting 10").contains("is no answer"));
}

/// N7: in its tail an order is found charging and counts; the ceiling has r for each order.
#[test]
fn tails() {
    let text =
        "open 1 720 1 100 2\ncommit 1 1 10 60 1 0\ncommit 1 1 10 60 1 12\nmove 11 360\nenquire 1\n\
                enquire 2\nmove 12 360\nenquire 1\nenquire 2";
    let answers = script::reference_answers(&lines(text));
    assert_eq!(demand::check(&lines(text), &answers), Ok(()));
    let falsified = |place: usize, wrong: &str| {
        let mut answers = answers.clone();
        answers[place] = wrong.as_bytes().to_vec();
        demand::check(&lines(text), &answers).map_err(|broken| broken.what)
    };
    let fails = |place, wrong| falsified(place, wrong).expect_err(wrong);
    assert!(fails(4, "refused 15").contains("ticket 1"));
    assert!(fails(4, "charging 0 12 1").contains("ticket 1"));
    assert!(fails(7, "charging 0 10 1").contains("ticket 1"));
    assert_eq!(fails(5, "waiting 11 1"), "minute 11 has counts [2, 0, 0] on feeder 1");
    // Two orders accepted in minute 0, of 10 minutes and a tail of 2 each: 24.
    assert_eq!(falsified(8, "waiting 14 1"), Ok(()));
    assert_eq!(fails(8, "waiting 15 1"), "ticket 2 ends in 25, after 24");
}

/// N7: beside a refused opening r is 0, so the order is gone at its end.
#[test]
fn no_tail_beside_a_refused_opening() {
    let text = "open 1 720 2 50 6\ncommit 1 1 5 5 1 0\nmove 5 360\nenquire 1";
    let mut answers = script::reference_answers(&lines(text));
    assert_eq!(demand::check(&lines(text), &answers), Ok(()));
    answers[3] = b"charging 0 5 1".to_vec();
    assert!(demand::check(&lines(text), &answers).is_err());
}

/// N3: beside empty lines so many of one line hold as the bound says, and one more
/// does not.
#[test]
fn bounds_rounded_to_nearest() {
    for (limit, percent, bound) in [(30, 5, 2), (30, 15, 4), (17, 3, 1), (9, 11, 1), (2, 75, 2)] {
        let mut text = format!("open 1 720 {limit} {percent} 0\n");
        text += &"commit 1 1 1 1 1 0\n".repeat(bound);
        text += "commit 1 1 1 1 1 1\n";
        text.extend((1..=bound + 1).map(|ticket| format!("enquire {ticket}\n")));
        let mut answers = script::reference_answers(&lines(&text));
        assert_eq!(demand::check(&lines(&text), &answers), Ok(()));
        *answers.last_mut().unwrap() = b"waiting 0 1".to_vec();
        let broken = demand::check(&lines(&text), &answers).unwrap_err();
        assert_eq!(broken.what, format!("minute 0 has counts [{}, 0, 0] on feeder 1", bound + 1));
    }
}
