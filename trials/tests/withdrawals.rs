//! Withdrawing an order (N11): when it is refused, what goes and what stays, the claims of
//! demand 3 about it, and the wrong programs of the request.

mod common;

use common::faulty::Error;
use common::{breaks_demand_3, caught, expect, lines, reference};
use std::collections::BTreeSet;
use trials::interpret::Interpreter;
use trials::protocol::{read_call, Call};
use trials::reference::Station;
use trials::{demand, generate, script};

/// Case f: tickets 1, 2, 3, 4 and 6 have begun, and ticket 5 waits for minute 5.
const F: &str =
    "open 1 720 2 50 0\ncommit 1 1 10 60 1 0\ncommit 1 3 10 60 1 0\ncommit 1 2 5 60 1 0\n\
                 commit 1 2 5 60 1 0\ncommit 1 2 5 20 1 5\ncommit 1 1 10 60 1 0\nmove 1 360\n";

/// Three charges on one point, which wait for 0, 10 and 20.
const QUEUE: &str =
    "open 1 720 1 100 0\ncommit 1 1 10 60 1 0\ncommit 1 1 10 60 1 10\ncommit 1 1 10 60 1 20\n";

fn last(text: &str, expected: &[&str]) {
    let all = script::reference_answers(&lines(text));
    let shown: Vec<String> = all.iter().map(|answer| script::show(answer)).collect();
    expect(text, &shown.iter().map(String::as_str).collect::<Vec<_>>());
    assert_eq!(shown[shown.len() - expected.len()..], *expected, "{text}");
}

/// "15", "25, after 15, the charge has begun; 26, after 25, the rest would not be sound".
/// Without ticket 5 minutes 5 to 9 count 2, 0, 1; without ticket 1 nothing would be wrong,
/// without ticket 2 much, but both have begun.
#[test]
fn withdrawals_refused() {
    last(&format!("{F}withdraw 5\nenquire 5"), &["refused 26", "waiting 5 1"]);
    last(&format!("{F}withdraw 1\nwithdraw 2"), &["refused 25", "refused 25"]);
    let text = format!("{F}withdraw 0\nwithdraw 7\nwithdraw 4294967295");
    last(&text, &["refused 15"; 3]);
    let text = format!("{F}move 10 360\nwithdraw 1\nwithdraw 5");
    last(&text, &["moved 1 dropped 6 5 5", "refused 15", "refused 15"]);
}

/// "A waiting charge is removed, and its place is free"; "no other start moves"; the ticket
/// is not given again.
#[test]
fn what_goes_and_what_stays() {
    let text = format!(
        "{QUEUE}withdraw 2\nenquire 1\nenquire 2\nenquire 3\nwithdraw 2\npreview 1 1 10 60 1\n\
         preview 1 1 11 60 1\ncommit 1 1 10 60 1 10\nwithdraw 4\ncommit 1 1 10 60 1 10\nmove 40 360"
    );
    let expected = [
        "withdrawn",
        "waiting 0 1",
        "refused 15",
        "waiting 20 1",
        "refused 15",
        "start 10",
        "start 30",
        "ticket 4 start 10",
        "withdrawn",
        "ticket 5 start 10",
        "moved 3 dropped 3 1 0 5 10 3 20",
    ];
    last(&text, &expected);
}

/// "a start equal to the clock still waits", and one in its tail has begun.
#[test]
fn at_the_clock_and_in_a_tail() {
    last(&format!("{QUEUE}withdraw 1"), &["withdrawn"]);
    last(&format!("{QUEUE}move 10 360\nwithdraw 2"), &["moved 1 dropped 1 1 0", "withdrawn"]);
    last(&format!("{QUEUE}move 11 360\nwithdraw 2"), &["moved 2 dropped 1 1 0 2 10", "refused 25"]);
    let text = "open 1 720 1 100 2\ncommit 1 1 10 60 1 0\nmove 11 360\nwithdraw 1\nmove 12 360\nwithdraw 1";
    last(text, &["refused 25", "moved 0 dropped 1", "refused 15"]);
}

/// Lists of offers, replans and lateness have nothing of it; a start that was shown before
/// it may not be the earliest any more.
#[test]
fn calls_after_it() {
    let text = format!("{QUEUE}preview 1 1 10 60 1\nwithdraw 2\ncommit 1 1 10 60 1 30");
    last(&text, &["start 30", "withdrawn", "refused 16"]);
    let text = format!("{QUEUE}preview 1 2 10 60 1\nwithdraw 2\ncommit 1 2 10 60 1 0");
    last(&text, &["start 0", "withdrawn", "ticket 4 start 0"]);
    let text = "open 1 720 1 100 0\ncommit 1 1 10 5 1 0\ncommit 1 1 10 5 1 10\nlatest 1\nwithdraw 2\nlatest 1\n\
                offer 1 0 0\noffer 1 0\nlines 1 1";
    let expected = ["plan 7 20 20 0", "withdrawn", "plan 7 5 5 0", "refused 10", "plan 7 5 5 0"];
    last(text, &[&expected[..], &["plan 7 5 5 1"]].concat());
}

/// A charge of rate 2 counts as two in the rest, and so does the tail.
#[test]
fn weighted_counts_of_the_rest() {
    let yard = "open 1 720 4 50 0\ncommit 1 1 5 60 2 0\ncommit 1 2 5 60 1 0\ncommit 1 3 5 60 1 0\n\
                commit 1 1 5 60 1 0\n";
    last(&format!("{yard}withdraw 2"), &["refused 26"]);
    last(&format!("{yard}withdraw 1\nwithdraw 2\nwithdraw 3"), &["withdrawn"; 3]);
    let yard = "open 1 720 2 50 3\ncommit 1 2 5 60 1 0\ncommit 1 3 9 60 1 0\ncommit 1 1 5 60 1 0\n\
                commit 1 1 1 60 1 0\n";
    last(&format!("{yard}withdraw 2"), &["refused 26"]);
}

fn full_yard() -> String {
    let commits = |line: u32| format!("commit 1 {line} 5 9 1 0\n").repeat(60);
    format!("open 1 720 60 100 0\n{}{}{}", commits(1), commits(2), commits(3))
}

/// "its place is free": one more order is taken, and one more after it is not.
#[test]
fn a_place_is_free() {
    let text = format!("{}commit 1 3 5 9 1 0\nwithdraw 180\n", full_yard());
    let text = format!("{text}commit 1 3 5 9 1 0\ncommit 1 3 5 9 1 0");
    last(&text, &["refused 13", "withdrawn", "ticket 181 start 0", "refused 13"]);
    let text = format!("{}withdraw 1\ncommit 1 1 5 9 1 0", full_yard());
    caught(Error::PlaceNotFreed, &text, "ticket 181 start 0", "refused 13");
}

#[test]
fn withdrawals_refused_otherwise() {
    caught(Error::OnlyTheLimitTested, &format!("{F}withdraw 5"), "refused 26", "withdrawn");
    caught(Error::BegunWithdrawn, &format!("{F}withdraw 1"), "refused 25", "withdrawn");
    caught(Error::SoundnessBeforeBegun, &format!("{F}withdraw 2"), "refused 25", "refused 26");
    let error = Error::StartAtTheClockIsBegun;
    caught(error, &format!("{QUEUE}withdraw 1"), "withdrawn", "refused 25");
}

#[test]
fn something_left_behind() {
    let text = format!("{QUEUE}withdraw 2\nenquire 3");
    caught(Error::OthersReplanned, &text, "waiting 20 1", "waiting 10 1");
    let text = format!("{QUEUE}withdraw 3\npreview 1 1 10 60 1");
    caught(Error::WithdrawnStillDraws, &text, "start 20", "start 30");
    let text = format!("{QUEUE}withdraw 3\ncommit 1 1 10 60 1 20");
    caught(Error::TicketGivenAgain, &text, "ticket 4 start 20", "ticket 3 start 20");
}

/// Plans that were left unsound, begun charges that went, tickets that come back and others
/// that lean on a withdrawn charge break demand 3; what is sound but another plan than the
/// rules give does not.
#[test]
fn demand_3_finds_what_it_should() {
    let sound =
        [Error::None, Error::OthersReplanned, Error::SoundnessBeforeBegun, Error::PlaceNotFreed];
    let unsound = [
        Error::OnlyTheLimitTested,
        Error::BegunWithdrawn,
        Error::TicketGivenAgain,
        Error::WithdrawnStillDraws,
    ];
    for error in sound {
        assert!(!breaks_demand_3("withdraw", error), "{error:?}");
    }
    for error in unsound {
        assert!(breaks_demand_3("withdraw", error), "{error:?}");
    }
}

/// What the checker says where one of the answers is another one.
fn falsified(text: &str, place: usize, wrong: &str) -> Result<(), String> {
    let mut answers = script::reference_answers(&lines(text));
    assert_eq!(demand::check(&lines(text), &answers), Ok(()));
    answers[place] = wrong.as_bytes().to_vec();
    demand::check(&lines(text), &answers).map_err(|broken| broken.what)
}

/// A withdrawn order is never reported, no enquiry and no board finds it, it is withdrawn once,
/// while it waits, and draws in no minute.
#[test]
fn a_withdrawn_order_has_no_charge() {
    let text = format!(
        "{QUEUE}move 5 360\nwithdraw 2\nwithdraw 2\nwithdraw 1\nboard 3 1 2 3\nenquire 2\nenquire 3\n\
         move 25 360"
    );
    let fails = |place, wrong: &str| falsified(&text, place, wrong).expect_err(wrong);
    assert_eq!(fails(5, "withdrawn 2"), "'withdrawn 2' is no answer to this call");
    assert_eq!(fails(5, "waiting 10 1"), "'waiting 10 1' is no answer to this call");
    assert_eq!(fails(6, "withdrawn"), "ticket 2 withdrawn again");
    assert_eq!(fails(7, "withdrawn"), "ticket 1 withdrawn, begun");
    assert!(fails(8, "board 2 0 10 20").contains("shows 10 for ticket 2"));
    assert!(fails(8, "board 3 0 4294967295 20").contains("looked at 3 charges of 2"));
    assert!(fails(9, "waiting 10 1").contains("ticket 2: waiting"));
    assert!(fails(9, "refused 25").contains("ticket 2: refused"));
    assert_eq!(fails(11, "moved 2 dropped 1 2 10 3 20"), "ticket 2 reported, withdrawn");
    // Minute 10 is free for another one: two in it are one and the withdrawn one.
    let text = format!("{QUEUE}withdraw 2\ncommit 1 1 10 60 1 10\nenquire 1\nenquire 3\nenquire 4");
    assert_eq!(falsified(&text, 8, "waiting 10 1"), Ok(()));
    let overlap = falsified(&text, 8, "waiting 11 1");
    assert_eq!(overlap, Err("minute 20 has counts [2, 0, 0] on feeder 1".to_string()));
    // Where it was refused, it still stands and has to be found.
    let refused = falsified(&format!("{QUEUE}withdraw 1\nmove 30 360"), 4, "refused 26");
    assert_eq!(refused, Err("ticket 1 neither reported nor found".to_string()));
}

/// "though its time still counts in the ceiling on ends": ticket 3 ends in minute 30, which is
/// the ceiling of three orders, one of them withdrawn; the ceiling of two would be 20.
#[test]
fn its_time_still_counts() {
    let text = format!("{QUEUE}withdraw 2\nenquire 1\nenquire 3");
    assert_eq!(falsified(&text, 6, "waiting 20 1"), Ok(()));
    let late = falsified(&text, 6, "waiting 21 1");
    assert_eq!(late, Err("ticket 3 ends in 31, after 30".to_string()));
}

/// The tail counts with it, and the order minute of the last accepted order is one of a
/// withdrawn order too: 5, and 10 + 2 for each of three.
#[test]
fn its_tail_and_order_minute_count() {
    let text = "open 1 720 1 100 2\ncommit 1 1 10 60 1 0\ncommit 1 1 10 60 1 12\nmove 5 360\n\
                commit 1 1 10 60 1 24\nwithdraw 3\nenquire 2";
    assert_eq!(falsified(text, 6, "waiting 31 1"), Ok(()));
    let late = falsified(text, 6, "waiting 32 1");
    assert_eq!(late, Err("ticket 2 ends in 42, after 41".to_string()));
}

/// "The ticket is not given again": the next order has the next one, also where the last one
/// was withdrawn.
#[test]
fn tickets_go_on() {
    let text = format!("{QUEUE}withdraw 3\ncommit 1 1 10 60 1 20\nenquire 1\nenquire 2\nenquire 4");
    let again = falsified(&text, 5, "ticket 3 start 20");
    assert_eq!(again, Err("ticket 3 where 4 is next".to_string()));
}

/// What the kind is meant for is in it.
#[test]
fn withdrawals_of_all_sorts_occur() {
    let mut seen = BTreeSet::new();
    for number in 0..150 {
        let mut yard = Interpreter::new(reference());
        let mut before = Before::default();
        for line in generate::script_of_kind("withdraw", 1, number).unwrap().lines {
            let station = yard.yard().clone();
            let mut answer = Vec::new();
            yard.answer(&line, &mut answer);
            let call = read_call(&line).ok().flatten();
            before.note(&station, call, &script::show(&answer), &mut seen);
        }
    }
    assert_eq!(seen.len(), 15, "{seen:#?}");
}

/// What has come before a call.
#[derive(Default)]
struct Before {
    withdrawn: BTreeSet<u32>,
    full: bool,
    previewed: bool,
    last_gone: bool,
}

impl Before {
    fn note(
        &mut self,
        station: &Station,
        call: Option<Call>,
        answer: &str,
        seen: &mut BTreeSet<&'static str>,
    ) {
        match call {
            Some(Call::Open { .. }) => *self = Before::default(),
            Some(Call::Preview { .. }) => self.previewed = false,
            Some(Call::Withdraw { ticket }) => {
                seen.insert(self.sort_of_withdrawal(station, ticket, answer));
                if answer == "withdrawn" {
                    self.withdrawn.insert(ticket);
                    self.full |= station.charges.len() == 180;
                    self.last_gone = ticket + 1 == station.next_ticket;
                    self.previewed = true;
                }
            }
            Some(Call::Commit { .. }) => {
                let taken = answer.starts_with("ticket");
                seen.extend((self.full && taken).then_some("the freed place is taken"));
                seen.extend(
                    (self.last_gone && taken).then_some("a ticket after the withdrawn one"),
                );
                let stale = self.previewed && answer == "refused 16";
                seen.extend(stale.then_some("a start shown before is stale"));
                seen.extend((self.previewed && taken).then_some("a start shown before is taken"));
                (self.full, self.previewed, self.last_gone) = (false, false, false);
            }
            _ => (),
        }
    }

    fn sort_of_withdrawal(&self, station: &Station, ticket: u32, answer: &str) -> &'static str {
        let charge = station.charge(ticket);
        let begun = station.begun(1);
        let leaned_on = !station.rules(1).sound(&begun, station.clock);
        match (answer, charge) {
            ("refused 15", _) if self.withdrawn.contains(&ticket) => "withdrawn before",
            ("refused 15", _) if ticket == 0 => "ticket 0",
            ("refused 15", _) if ticket >= station.next_ticket => "never given",
            ("refused 15", _) => "dropped",
            ("refused 25", Some(charge)) if charge.end() <= station.clock => "in its tail",
            ("refused 25", _) => "begun",
            ("refused 26", _) if leaned_on => "begun ones lean on it",
            ("refused 26", _) => "waiting ones lean on it",
            (_, Some(charge)) if charge.start == station.clock => "start equal to the clock",
            (_, Some(charge)) if charge.rate == 2 => "waiting, of rate 2",
            _ => "waiting",
        }
    }
}
