//! The refusals with their order, what they leave alone, and single rules where
//! one could miss them.

mod common;

use common::{answers, expect, fast, lines, reference};
use trials::fill::fill;
use trials::script;
use trials::yard::{Moved, Opening, Order, Yard};

const WORD: &str = "4294967295";

#[test]
fn openings_refused() {
    expect(
        "open 1 720 0 100 0\nopen 1 720 61 101 0\nopen 1 720 1 101 0\nopen 1 720 60 101 0",
        &["refused 1", "refused 1", "refused 2", "refused 2"],
    );
    expect(
        "open 1 720 1 50 0\nopen 1 720 1 51 0\nopen 1 720 50 1 0\nopen 1 720 51 1 0\nopen 1 720 59 0 0",
        &["refused 3", "open 0 1", "refused 3", "open 0 1", "refused 3"],
    );
    expect(
        &format!("open 1 720 {WORD} {WORD} {WORD}\nopen 1 720 60 {WORD} 0"),
        &["refused 1", "refused 2"],
    );
}

/// "Beside a refused opening stands the fresh station of 1, 100."
#[test]
fn a_refused_opening_leaves_the_small_station() {
    let text =
        "open 1 720 60 100 0\ncommit 1 1 5 5 1 0\ncommit 1 1 5 5 1 0\nopen 1 720 60 101 0\ncommit 1 1 5 5 1 0\ncommit 1 1 5 9 1 5\nenquire 3";
    let expected = [
        "open 0 60",
        "ticket 1 start 0",
        "ticket 2 start 0",
        "refused 2",
        "ticket 1 start 0",
        "ticket 2 start 5",
        "refused 15",
    ];
    expect(text, &expected);
}

/// "Both meet the order's refusals", in the order of their places; 16 comes last.
#[test]
fn orders_refused_by_the_first_place() {
    let orders = [
        (format!("0 0 {WORD} 0"), "refused 4"),
        ("4 1 1 1".to_string(), "refused 4"),
        (format!("1 0 {WORD} 0"), "refused 5"),
        ("1 1441 0 3".to_string(), "refused 5"),
        (format!("1 {WORD} {WORD} {WORD}"), "refused 5"),
        ("1 1440 2000001 0".to_string(), "refused 17"),
        ("1 1440 2000001 3".to_string(), "refused 17"),
        (format!("1 1440 2000000 {WORD}"), "refused 17"),
        ("1 1440 2000001 2".to_string(), "refused 18"),
        ("1 1440 2000000 2".to_string(), "refused 18"),
        ("1 1440 2000001 1".to_string(), "refused 6"),
    ];
    for (order, refused) in orders {
        let text = format!("preview 1 {order}\ncommit 1 {order} 0\ncommit 1 {order} {WORD}");
        expect(&text, &[refused; 3]);
    }
    let text = format!("preview 1 1 1440 2000000 1\ncommit 1 1 1440 2000000 1 {WORD}");
    expect(&text, &["start 0", "refused 16"]);
}

/// "changes nothing": the same start is shown again, the ticket is still to be given,
/// and the report has nothing of it.
#[test]
fn previews_change_nothing() {
    let text =
        "open 1 720 1 100 0\npreview 1 1 5 9 1\npreview 1 1 5 9 1\nenquire 1\nlatest 1\noffer 1\nmove 9 360\n\
                preview 1 1 5 9 1\ncommit 1 1 5 9 1 9";
    let mut expected = vec!["open 0 1", "start 0", "start 0", "refused 15", "plan 7 0 0 0"];
    expected.extend(["plan 7 0 0 0", "moved 0 dropped 0", "start 9", "ticket 1 start 9"]);
    expect(text, &expected);
}

/// A start shown is good for as long as it is the earliest: not past a move beyond
/// it, another order in its place, or a taken plan; and one that is sound but not the
/// earliest is refused too. The order minute is the clock of the commit.
#[test]
fn starts_that_are_not_the_earliest_any_more() {
    let text = format!(
        "open 1 720 1 100 0\ncommit 1 1 10 60 1 0\ncommit 1 1 10 15 1 10\npreview 1 2 5 90 1\nmove 1 360\n\
         commit 1 2 5 90 1 0\ncommit 1 2 5 90 1 2\ncommit 1 2 5 90 1 1\npreview 1 2 5 90 1\n\
         commit 1 2 5 90 1 6\ncommit 1 2 5 90 1 6\ncommit 1 2 5 90 1 {WORD}\npreview 1 2 5 90 1\ncommit 1 2 5 90 1 11"
    );
    let mut expected = vec!["open 0 1", "ticket 1 start 0", "ticket 2 start 10", "start 0"];
    expected.extend(["moved 1 dropped 0 1 0", "refused 16", "refused 16", "ticket 3 start 1"]);
    expected.extend(["start 6", "ticket 4 start 6", "refused 16", "refused 16"]);
    expected.extend(["start 11", "ticket 5 start 11"]);
    expect(&text, &expected);
    let text =
        "open 1 720 1 100 0\ncommit 1 1 5 60 1 0\ncommit 1 1 5 5 1 5\ncommit 1 2 3 60 1 0\npreview 1 2 3 60 1\n\
                offer 1 5 0 4\ncommit 1 2 3 60 1 3\ncommit 1 2 3 60 1 7\ncommit 1 2 3 60 1 0";
    let mut expected = vec!["open 0 1", "ticket 1 start 0", "ticket 2 start 5"];
    expected.extend(["ticket 3 start 0", "start 3", "plan 0 5 0 0"]);
    expected.extend(["refused 16", "refused 16", "ticket 4 start 0"]);
    expect(text, &expected);
}

#[test]
fn moves_refused() {
    let text = format!(
        "move 5 360\nmove 1000001 0\nmove {WORD} 360\nmove 4 359\nmove 5 359\nmove 4 360\nmove 5 360\n\
         move 6 4097\nmove 7 {WORD}\nmove 1000000 360"
    );
    let moved = "moved 0 dropped 0";
    let expected = [
        moved,
        "refused 8",
        "refused 8",
        "refused 9",
        "refused 9",
        "refused 12",
        moved,
        moved,
        moved,
        moved,
    ];
    expect(&text, &expected);
}

#[test]
fn lists_allowances_and_tickets_refused() {
    let text = format!(
        "open 1 720 1 100 0\ncommit 1 1 10 60 1 0\noffer 1\noffer 1 0 0\nlines 1 0\nlines 1 1001\nlines 1 {WORD}\n\
         enquire 0\nenquire 2\nenquire {WORD}\nenquire 1\nmove 10 360\nenquire 1"
    );
    let expected = [
        "open 0 1",
        "ticket 1 start 0",
        "refused 10",
        "refused 10",
        "refused 11",
        "refused 11",
        "refused 11",
        "refused 15",
        "refused 15",
        "refused 15",
        "waiting 0 1",
        "moved 1 dropped 1 1 0",
        "refused 15",
    ];
    expect(&text, &expected);
}

/// "the station and every list stay", and "Places after them keep what they held".
fn report_list<Y: Yard>(mut yard: Y) {
    yard.open(&Opening::of_one(2, 50, 0)).unwrap();
    yard.commit(Order { feeder: 1, line: 1, time: 5, due: 9, rate: 1 }, 0).unwrap();
    yard.commit(Order { feeder: 1, line: 2, time: 5, due: 9, rate: 1 }, 0).unwrap();
    let untouched: Vec<u32> = (0..400).map(|place| 7 * place + 1).collect();
    let mut list = untouched.clone();
    assert_eq!(yard.move_clock(1_000_001, &mut list), Err(8));
    assert_eq!(yard.move_clock(1, &mut list[..359]), Err(9));
    assert_eq!(yard.move_clock(0, &mut list), Ok(Moved { reported: 0, dropped: 0 }));
    assert_eq!(list, untouched);
    assert_eq!(yard.move_clock(1, &mut list), Ok(Moved { reported: 2, dropped: 0 }));
    assert_eq!(list[..4], [1, 0, 2, 0]);
    assert_eq!(list[4..], untouched[4..]);
    assert_eq!(yard.move_clock(0, &mut list), Err(12));
    assert_eq!(list[4..], untouched[4..]);
}

#[test]
fn report_lists_are_left_alone() {
    report_list(reference());
    report_list(fast());
}

/// "ordered by start, then ticket", and charges reported and dropped at once.
#[test]
fn a_move_over_everything() {
    let text =
        "open 1 720 1 100 0\ncommit 1 1 3 9 1 0\ncommit 1 1 3 9 1 3\ncommit 1 2 3 9 1 0\nmove 7 360\nmove 7 360";
    let expected = [
        "open 0 1",
        "ticket 1 start 0",
        "ticket 2 start 3",
        "ticket 3 start 0",
        "moved 3 dropped 3 1 0 3 0 2 3",
        "moved 0 dropped 0",
    ];
    expect(text, &expected);
}

/// Cause 3 is about all starts and comes before 4; a start near 2^32 has an end
/// of more than 32 bits; 5 anywhere comes before 6 anywhere.
#[test]
fn causes_of_offers_in_their_order() {
    let text = format!(
        "open 1 720 2 50 0\ncommit 1 1 5 5 1 0\ncommit 1 1 5 5 1 5\ncommit 1 1 5 5 1 10\nmove 1 360\n\
         offer 1 0 {WORD}\noffer 1 {WORD} 10\noffer 1 4294967290 10\noffer 1 11 10\n\
         offer 1 5 5\noffer 1 1 5\noffer 1 5 6\noffer 1 1 1\noffer 1 10 5\noffer 1 5 10"
    );
    let expected = [
        "open 0 1",
        "ticket 1 start 0",
        "ticket 2 start 5",
        "ticket 3 start 10",
        "moved 1 dropped 0 1 0",
        "plan 3 15 15 0",
        "plan 4 15 15 0",
        "plan 4 15 15 0",
        "plan 4 15 15 0",
        "plan 6 15 15 0",
        "plan 6 15 15 0",
        "plan 6 15 15 0",
        "plan 5 15 15 0",
        "plan 7 15 15 0",
        "plan 7 15 15 0",
    ];
    expect(&text, &expected);
}

/// A difference in an early minute and a count too high in a late one: cause 5.
#[test]
fn a_late_count_beats_an_early_difference() {
    let text = "open 1 720 2 50 0\ncommit 1 1 5 5 1 0\ncommit 1 1 5 5 1 5\ncommit 1 1 5 5 1 10\ncommit 1 1 5 5 1 15\ncommit 1 1 5 5 1 20\n\
                offer 1 0 0 10 10 10";
    let last = trials::script::reference_answers(&common::lines(text)).pop().unwrap();
    assert_eq!(trials::script::show(&last), "plan 5 50 50 0");
}

/// N4: 128 charges of rate 2 in one minute are 256 points, which is nothing in a byte.
#[test]
fn counts_past_a_byte() {
    for count in [128, 180] {
        let queue = "commit 1 1 1 1 2 ?\n".repeat(count);
        let text = format!("open 1 720 60 100 0\n{queue}offer 1{}", " 0".repeat(count));
        let text = script::show(&script::join(&fill(reference(), &lines(&text))));
        for answers in [answers(reference(), &text), answers(fast(), &text)] {
            assert!(answers.last().is_some_and(|last| last.starts_with("plan 5 ")));
        }
    }
}

/// Cause 1 by lines: the begun charges of line 1 lean on ticket 3, which a round
/// starts too early, and nothing of line 1 was placed.
#[test]
fn by_lines_without_a_placed_charge() {
    let text = "open 1 720 6 17 0\ncommit 1 1 9 9 1 0\ncommit 1 2 2 2 1 0\ncommit 1 2 7 7 1 2\ncommit 1 3 9 9 1 0\ncommit 1 1 9 9 1 0\n\
                move 1 360\nlines 1 1\nlines 1 1000";
    let expected = [
        "open 0 1",
        "ticket 1 start 0",
        "ticket 2 start 0",
        "ticket 3 start 2",
        "ticket 4 start 0",
        "ticket 5 start 0",
        "moved 4 dropped 0 1 0 2 0 4 0 5 0",
        "plan 1 2 2 1",
        "plan 1 2 2 1",
    ];
    expect(text, &expected);
}
