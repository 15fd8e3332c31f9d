//! The trials of a bus find every faulty one.

mod wrong;

use std::time::Duration;
use trials::compare::{compare, Choice};
use trials::program::{Answering, Program};
use trials::role::Role;
use trials::{between, damage, kills};
use wrong::{Fault, Inside};

/// With a word of the title under which the trials of images find them.
const FOUND: [(Fault, &str); 27] = [
    (Fault::CheckWithoutPlace, "Limit"),
    (Fault::CheckOf507Bytes, "Held"),
    (Fault::BigEndian, "valid"),
    (Fault::AnyCheck, "changed"),
    (Fault::ContentsBeforeChecks, "changed"),
    (Fault::NumberedByRecord, "Limit"),
    (Fault::BlocksOf512, "valid"),
    (Fault::RecordsInARow, "Limit"),
    (Fault::BlocksWithoutChecks, "an opening over"),
    (Fault::BlocksAfterWriting, "Limit"),
    (Fault::BlocksWithoutTheFirst, "Limit"),
    (Fault::UnsoundTaken, "Unsound"),
    (Fault::TicketsRepeat, "Tickets"),
    (Fault::FinishedTaken, "Finished"),
    (Fault::SpareByteTaken, "0 held, 4 records"),
    (Fault::EndIn32Bits, "EndTooLate"),
    (Fault::SoundInThePast, "valid"),
    (Fault::DueRefused, "valid"),
    (Fault::Only180Tickets, "valid"),
    (Fault::SiteExceededTaken, "SiteExceeded"),
    (Fault::AnySiteLimit, "SiteLimit"),
    (Fault::SeveralRefusedFirst, "Limit"),
    (Fault::FirstOfSeveralSaved, "Limit"),
    (Fault::SavedAfterRefusal, "bytes"),
    (Fault::OpeningReadsTheImage, "Limit"),
    (Fault::OwnRefusalFirst, "bytes"),
    (Fault::ErrorRefused, "bytes"),
];

#[test]
fn the_trials_of_images_find_every_faulty_bus() {
    for (fault, word) in FOUND {
        let failure =
            damage::compare(&Inside(fault), damage::trials(1, 0)).expect_err(&format!("{fault:?}"));
        assert!(failure.title.contains(word), "{fault:?}: {}", failure.title);
    }
    let failure = damage::compare(&Inside(Fault::OtherLengthsNotRead), damage::trials(1, 0));
    assert!(failure.is_err_and(|failure| failure.title.contains("0 bytes")));
}

#[test]
fn without_a_fault_all_images_are_answered_rightly() {
    let summary = damage::compare(&Inside(Fault::None), damage::trials(1, 0).step_by(4));
    assert!(summary.map_err(|failure| failure.what).is_ok_and(|summary| summary.scripts > 5_000));
}

fn choice(kind: &str) -> Choice<'_> {
    Choice { scripts: 45, seed: 7, kind: Some(kind), role: Role::Bus, ..Choice::default() }
}

/// The comparison of scripts finds what lies in the images written, and what the bus does
/// before the first opening and after a refused one.
#[test]
fn the_comparison_finds_faulty_buses() {
    for fault in [
        Fault::CheckWithoutPlace,
        Fault::NumberedByRecord,
        Fault::BlocksAfterWriting,
        Fault::BlocksWithoutTheFirst,
        Fault::SavedAfterRefusal,
        Fault::OpeningReadsTheImage,
        Fault::FreshAtFirst,
    ] {
        let failure = compare(&Inside(fault), &choice("tails")).expect_err(&format!("{fault:?}"));
        let lines = failure.lines.len();
        assert!(lines <= 8, "{fault:?} is left with {lines} lines");
    }
}

#[test]
fn scripts_of_every_kind_without_a_fault() {
    let choice = Choice {
        scripts: 90,
        seed: 3,
        without: Some("loops"),
        role: Role::Bus,
        ..Choice::default()
    };
    let summary = compare(&Inside(Fault::None), &choice).map_err(|failure| failure.what);
    assert_eq!(summary.map(|summary| summary.scripts), Ok(93));
}

#[test]
fn the_second_implementations_bus_as_a_program() {
    let command = format!("{} bus", env!("CARGO_BIN_EXE_trials"));
    let program = Program::new(&command, Duration::from_secs(60));
    let choice = Choice { scripts: 45, ..choice("mixed") };
    let summary = compare(&program, &choice).map_err(|failure| failure.what);
    assert_eq!(summary.map(|summary| summary.scripts), Ok(47));
    let outcome = program.answers(
        b"latest 1\nlatest 1 1\nread\nread /\nopen 1 720 5 20 0\nopen 1 720 61 20 0\nlatest 1\n\
open 2 9 5 20 0 5 20 0\nopen 2 0 5 20 0 5 20 0\nlatest 2\n",
    );
    assert_eq!(outcome.answers.len(), 10);
    assert_eq!(outcome.answers[0], b"refused 22");
    assert_eq!(outcome.answers[1], b"error extra number");
    assert_eq!(outcome.answers[4], b"open 0 1 blocks 1");
    assert_eq!(outcome.answers[5], b"refused 1");
    assert_eq!(outcome.answers[6], b"plan 7 0 0 0 blocks 0");
    assert_eq!(outcome.answers[7], b"refused 22");
    assert_eq!(outcome.answers[8], b"refused 28");
    assert_eq!(outcome.answers[9], b"refused 29");
}

/// Stops of a bus that keeps its image in a file.
fn stopped(fault: &str) -> Result<kills::Tally, String> {
    let words = [env!("CARGO_BIN_EXE_wrong_bus"), fault].map(String::from);
    kills::compare(&words, 5, 250, Duration::from_secs(20)).map_err(|failure| failure.what)
}

#[test]
fn stops_leave_the_image_before_or_after_a_call() {
    let tally = stopped("None").expect("no fault");
    assert!(tally.stops >= 100 && tally.answers > tally.stops, "{tally:?}");
}

#[test]
fn stops_find_a_bus_that_keeps_its_image_wrongly() {
    for (fault, what) in [
        ("LosesTheLastCall", "a call that was answered is lost"),
        ("AnswersFirst", "a call that was answered is lost"),
        ("WritesInPlace", "no image of a call"),
    ] {
        let found = stopped(fault).expect_err(fault);
        assert!(found.contains(what), "{fault}: {found}");
    }
}

/// Stops between keeping an image and its answer.
fn stopped_between(fault: &str, stops: usize) -> Result<(), String> {
    let words = [env!("CARGO_BIN_EXE_wrong_bus"), fault].map(String::from);
    between::compare(&words, 5, stops).map_err(|failure| failure.what)
}

#[test]
fn a_stop_between_keeping_and_answering_leaves_the_next_image() {
    stopped_between("None", 3).expect("no fault");
    let found = stopped_between("AnswersFirst", 1).expect_err("AnswersFirst");
    assert!(found.contains("not kept before its answer"), "{found}");
}
