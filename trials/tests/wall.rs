//! The page for the office wall (N12): its lines to the letter, and faulty printers, all of
//! which the comparison finds.

mod common;

use common::lines;
use std::time::Duration;
use trials::feed::Way;
use trials::image::{image_of, restore, BYTES};
use trials::interpret::Interpreter;
use trials::program::{Answering, Outcome, Program};
use trials::random::Random;
use trials::reference::{Charge, Station};
use trials::script;
use trials::wall::page::{of_image, of_station};
use trials::wall::{self, stations};

const HEADING: &str = "ticket l     start       end state   ";
const UNUSED: &str = "                                     ";
const NO_STATION: &str = "no station                           ";

/// The station after some calls.
fn after(text: &str) -> Station {
    let mut yard = Interpreter::new(Station::fresh(1, 100, 0));
    lines(text).iter().for_each(|line| {
        yard.answer(line, &mut Vec::new());
    });
    yard.yard().clone()
}

/// The lines of the pages, each with its line feed.
fn printed(station: &Station) -> Vec<String> {
    let pages = of_station(station);
    assert_eq!(pages, of_image(&image_of(station)));
    pages.split_inclusive('\n').map(String::from).collect()
}

const E: &str =
    "open 1 720 2 50 0\ncommit 1 1 10 60 1 0\ncommit 1 3 10 60 1 0\ncommit 1 2 5 60 1 0\n\
                 commit 1 2 5 60 1 0\ncommit 1 2 5 20 1 5\ncommit 1 1 10 60 1 0\n";

/// "Ticket 5 of case e prints, between bars, |     5 2         5        10 waiting |."
#[test]
fn case_e() {
    let mut expected = vec![
        HEADING,
        "     1 1         0        10 waiting ",
        "     2 3         0        10 waiting ",
        "     3 2         0         5 waiting ",
        "     4 2         0         5 waiting ",
        "     5 2         5        10 waiting ",
        "     6 1         0        10 waiting ",
    ];
    expected.resize(25, UNUSED);
    let expected: Vec<String> = expected.iter().map(|line| format!("{line}\n")).collect();
    assert_eq!(printed(&after(E)), expected);
    let begun = printed(&after(&format!("{E}move 1 360")));
    assert_eq!(begun[1], "     1 1         0        10 charging\n");
    assert_eq!(begun[5], expected[5]);
}

/// "A charge in its tail prints charging with an end at or below the clock", which is s + p.
#[test]
fn a_charge_in_its_tail() {
    let text = "open 1 720 1 100 2\ncommit 1 1 10 60 1 0\ncommit 1 1 10 60 1 12\nmove 11 360";
    let rows = printed(&after(text));
    assert_eq!(rows[1], "     1 1         0        10 charging\n");
    assert_eq!(rows[2], "     2 1        12        22 waiting \n");
    assert_eq!(printed(&after(&format!("{text}\nmove 12 360")))[1], rows[2]);
}

#[test]
fn the_largest_numbers() {
    let rows = printed(&stations::largest());
    assert_eq!(rows[1], "     1 3    998556    999996 charging\n");
    assert_eq!(rows[4], " 65534 3  95696635  95698075 waiting \n");
    assert_eq!(rows[5], " 65535 3  95698074  95698075 waiting \n");
}

/// Pages of 25 lines, each of 37 characters, with nothing between them; "No charges means one
/// page."
#[test]
fn pages_of_24_rows() {
    let numbers = [0, 1, 23, 24, 25, 47, 48, 49, 72, 73, 179, 180];
    let pages = [1, 1, 1, 1, 2, 2, 2, 3, 3, 4, 8, 8];
    for (held, pages) in numbers.into_iter().zip(pages) {
        let rows = printed(&stations::crowd(&mut Random::new(2), held));
        assert_eq!(rows.len(), 25 * pages, "{held}");
        assert!(rows.iter().all(|row| row.len() == 38 && row.ends_with('\n')), "{held}");
        let heading = format!("{HEADING}\n");
        assert!(rows.iter().step_by(25).all(|row| *row == heading), "{held}");
        assert_eq!(rows.iter().filter(|row| **row == heading).count(), pages, "{held}");
        let unused = rows.iter().filter(|row| row.trim().is_empty()).count();
        assert_eq!(unused, 24 * pages - held, "{held}");
        let tickets: Vec<u32> =
            rows.iter().filter_map(|row| row[..6].trim().parse().ok()).collect();
        assert_eq!(tickets.len(), held);
        assert!(tickets.windows(2).all(|two| two[0] < two[1]), "{held}");
    }
}

/// "A refused image prints only the row "no station", padded on the right, without a
/// heading."
#[test]
fn refused_images() {
    let image = image_of(&after(E));
    let refused = format!("{NO_STATION}\n");
    for length in [0, 1, BYTES - 1, BYTES + 1, 2 * BYTES, 1_000_000] {
        let bytes: Vec<u8> = image.iter().copied().cycle().take(length).collect();
        assert_eq!(of_image(&bytes), refused, "{length}");
    }
    assert_eq!(of_image(&[0; BYTES]), refused);
    let mut damaged = image.clone();
    damaged[700] ^= 1;
    assert_eq!(of_image(&damaged), refused);
    assert_ne!(of_image(&image), refused);
}

#[derive(Clone, Copy, Debug, PartialEq, Eq)]
enum Fault {
    None,
    LeftAlignedStarts,
    StateCutTo7,
    RowsByStart,
    /// For 24, 48 and so on.
    EmptyPage,
    /// In the middle of a page.
    HeadingInsideAPage,
    HeadingOnce,
    EndWithTail,
    /// The state goes by the end and not by the start.
    TailNotShown,
    StartAtTheClockCharges,
    UnusedRowsLeftOut,
    NoChargesNoPage,
    FeedBetweenPages,
    NoLastFeed,
    LongerInputTaken,
    ShorterInputTaken,
    RefusedNotPadded,
    RefusedBelowAHeading,
    ChecksNotLookedAt,
}

const FAULTS: [Fault; 18] = [
    Fault::LeftAlignedStarts,
    Fault::StateCutTo7,
    Fault::RowsByStart,
    Fault::EmptyPage,
    Fault::HeadingInsideAPage,
    Fault::HeadingOnce,
    Fault::EndWithTail,
    Fault::TailNotShown,
    Fault::StartAtTheClockCharges,
    Fault::UnusedRowsLeftOut,
    Fault::NoChargesNoPage,
    Fault::FeedBetweenPages,
    Fault::NoLastFeed,
    Fault::LongerInputTaken,
    Fault::ShorterInputTaken,
    Fault::RefusedNotPadded,
    Fault::RefusedBelowAHeading,
    Fault::ChecksNotLookedAt,
];

/// A printer with one fault.
struct Printer(Fault);

impl Printer {
    fn has(&self, fault: Fault) -> bool {
        self.0 == fault
    }

    fn print(&self, image: &[u8]) -> String {
        let mut image = image.to_vec();
        if self.has(Fault::LongerInputTaken) {
            image.truncate(BYTES);
        }
        if self.has(Fault::ShorterInputTaken) && image.len() < BYTES {
            image.resize(BYTES, 0);
        }
        let station = match restore(&image) {
            Err(21) if self.has(Fault::ChecksNotLookedAt) => {
                Ok(trials::image::station_in(&trials::image::blocks::contents(&image)))
            }
            restored => restored,
        };
        station.map_or_else(|_| self.refused(), |station| self.pages(&station))
    }

    fn refused(&self) -> String {
        match self.0 {
            Fault::RefusedNotPadded => "no station\n".to_string(),
            Fault::RefusedBelowAHeading => format!("{HEADING}\n{NO_STATION}\n"),
            _ => format!("{NO_STATION}\n"),
        }
    }

    fn pages(&self, station: &Station) -> String {
        let mut charges = station.charges.clone();
        if self.has(Fault::RowsByStart) {
            charges.sort_by_key(|charge| charge.start);
        }
        let rows: Vec<String> = charges.iter().map(|charge| self.row(charge, station)).collect();
        let mut pages = rows.len().div_ceil(24);
        if pages == 0 && !self.has(Fault::NoChargesNoPage) {
            pages = 1;
        }
        if self.has(Fault::EmptyPage) && !rows.is_empty() && rows.len() % 24 == 0 {
            pages += 1;
        }
        let between = if self.has(Fault::FeedBetweenPages) { "\n" } else { "" };
        let page = |number| self.page(number, rows.get(24 * number..).unwrap_or_default());
        let mut text = (0..pages).map(page).collect::<Vec<_>>().join(between);
        if self.has(Fault::NoLastFeed) {
            text.pop();
        }
        text
    }

    /// The page with this number, from the rows that are still to be printed.
    fn page(&self, number: usize, rows: &[String]) -> String {
        let mut lines = Vec::new();
        for place in 0..24 {
            let heading = place == 0 && (number == 0 || !self.has(Fault::HeadingOnce));
            if heading || (place == 12 && self.has(Fault::HeadingInsideAPage)) {
                lines.push(HEADING.to_string());
            }
            match rows.get(place) {
                Some(row) => lines.push(row.clone()),
                None if self.has(Fault::UnusedRowsLeftOut) => (),
                None => lines.push(UNUSED.to_string()),
            }
        }
        lines.iter().map(|line| format!("{line}\n")).collect()
    }

    fn row(&self, charge: &Charge, station: &Station) -> String {
        let clock = station.clock;
        let end = if self.has(Fault::EndWithTail) { charge.clear() } else { charge.end() };
        let charging = match self.0 {
            Fault::StartAtTheClockCharges => charge.start <= clock,
            Fault::TailNotShown => charge.start < clock && clock < charge.end(),
            _ => charge.start < clock,
        };
        let state = if charging { "charging" } else { "waiting " };
        let state = if self.has(Fault::StateCutTo7) { &state[..7] } else { state };
        let start = match self.0 {
            Fault::LeftAlignedStarts => format!("{:<9}", charge.start),
            _ => format!("{:>9}", charge.start),
        };
        format!("{:>6} {} {start} {end:>9} {state:<8}", charge.ticket, charge.line)
    }
}

impl Answering for Printer {
    fn answers_to(&self, input: &[u8], _: &Way) -> Outcome {
        let text = self.print(input);
        let unended = !text.is_empty() && !text.ends_with('\n');
        let trouble = unended.then(|| "its last line has no line feed".to_string());
        Outcome { answers: script::split(text.as_bytes()), trouble }
    }
}

#[test]
fn the_comparison_finds_every_faulty_printer() {
    let right = wall::compare(&Printer(Fault::None), 1, 100).map_err(|failure| failure.what);
    assert_eq!(right.map(|summary| summary.scripts), Ok(190));
    for fault in FAULTS {
        let failure = wall::compare(&Printer(fault), 1, 0).expect_err(&format!("{fault:?}"));
        assert!(failure.title.contains("trials wall-input"), "{fault:?}: {}", failure.title);
    }
}

fn program(command: &str, patience: Duration) -> Program {
    Program::new(command, patience)
}

/// The trials' own printer as a program, also with nobody to read what it prints.
#[test]
fn a_printer_as_a_program() {
    let own = format!("{} pages", env!("CARGO_BIN_EXE_trials"));
    let own = program(&own, Duration::from_secs(60));
    let summary = wall::compare(&own, 5, 30).map_err(|failure| failure.what);
    assert_eq!(summary.map(|summary| summary.scripts), Ok(120));
    let ended = wall::without_output(&own).map_err(|failure| failure.what);
    assert_eq!(ended, Ok(()));
}

/// A program that goes on without an output is told, and so is one that is not there.
#[test]
fn programs_that_do_not_end() {
    let endless = program("sleep 60", Duration::from_millis(300));
    let ended = wall::without_output(&endless).map_err(|failure| failure.what);
    assert!(ended.is_err_and(|what| what.contains("no end")));
    let missing = program("./no-such-program", Duration::from_secs(1));
    let started = wall::without_output(&missing).map_err(|failure| failure.what);
    assert!(started.is_err_and(|what| what.contains("cannot be started")));
}
