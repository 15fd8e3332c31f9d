//! The board over the exit (N10): what is shown, what is refused, what stays, and the wrong
//! programs of the request.

mod common;

use common::faulty::{Error, Faulty};
use common::{breaks_demand_3, caught, expect, fast, lines, reference};
use std::collections::BTreeSet;
use trials::interpret::Interpreter;
use trials::protocol::{read_call, Call};
use trials::yard::{Opening, Order, Yard, NOT_HELD};
use trials::{demand, generate, script};

/// Tickets 1, 3 and 4 are held, 2 is gone, 5 is not yet given. Ticket 1 charges, 3 and 4 wait.
const YARD: &str =
    "open 1 720 2 50 0\ncommit 1 1 10 60 1 0\ncommit 1 2 3 60 1 0\ncommit 1 1 10 60 1 10\n\
                    commit 1 1 10 60 1 20\nmove 3 360\n";

fn after(more: &str, expected: &[&str]) {
    let mut all = vec!["open 0 1", "ticket 1 start 0", "ticket 2 start 0", "ticket 3 start 10"];
    all.extend(["ticket 4 start 20", "moved 2 dropped 1 1 0 2 0"]);
    all.extend_from_slice(expected);
    expect(&format!("{YARD}{more}"), &all);
}

/// "writes the start of each to another such list, or 4,294,967,295 for one not held", and
/// "how many it looked at: those with a ticket not above the highest asked".
#[test]
fn starts_and_how_many_were_looked_at() {
    after("board 3 1 3 4", &["board 3 0 10 20"]);
    after("board 2 1 2", &["board 1 0 4294967295"]);
    after("board 1 2", &["board 1 4294967295"]);
    after("board 1 3", &["board 2 10"]);
    after("board 3 0 4 4294967295", &["board 3 4294967295 20 4294967295"]);
    after("board 2 5 65536", &["board 3 4294967295 4294967295"]);
    after("board 1 0", &["board 0 4294967295"]);
    after("board 0\nboard 7\nboard 4294967295", &["board 0"; 3]);
    expect("board 0\nboard 2 1 2", &["board 0", "board 0 4294967295 4294967295"]);
}

/// "23, tickets not strictly rising or more than 180; 24, answer list shorter than the
/// ticket list": 23 comes first.
#[test]
fn boards_refused() {
    let (order, short) = ("refused 23", "refused 24");
    after("board 2 3 3\nboard 2 3 1\nboard 3 1 4 3\nboard 9 0 0", &[order; 4]);
    after("board 0 3\nboard 1 1 3\nboard 2 1 3 4294967295", &[short; 3]);
    after("board 0 3 3\nboard 1 4 3", &[order; 2]);
    let asked = |places: usize, count: usize| {
        let tickets: Vec<String> = (1..=count).map(|ticket| format!(" {ticket}")).collect();
        format!("board {places}{}", tickets.concat())
    };
    after(&asked(180, 181), &[order]);
    after(&asked(4096, 181), &[order]);
    after(&asked(181, 500), &[order]);
    after(&asked(179, 180), &[short]);
    let shown = format!("board 3 0 4294967295 10 20{}", " 4294967295".repeat(176));
    after(&asked(180, 180), &[&shown]);
    after(&asked(4097, 180), &[&shown]);
}

/// "Later places of the answer list are kept", and "the station and every list stay" beside
/// a refusal.
fn answer_list(mut yard: impl Yard) -> Result<(), &'static str> {
    let order = Order { feeder: 1, line: 1, time: 5, due: 9, rate: 1 };
    yard.open(&Opening::of_one(1, 100, 0)).map_err(|_| "open")?;
    yard.commit(order, 0).map_err(|_| "commit")?;
    yard.commit(order, 5).map_err(|_| "commit")?;
    let untouched: Vec<u32> = (0..400).map(|place| 7 * place + 1).collect();
    let board = |tickets: &[u32], places: usize| {
        let mut list = untouched.clone();
        let answer = yard.board(tickets, &mut list[..places]);
        (answer, list)
    };
    let ensure = |holds: bool, what| if holds { Ok(()) } else { Err(what) };
    ensure(board(&[2, 2], 400) == (Err(23), untouched.clone()), "23")?;
    ensure(board(&[1, 2], 1) == (Err(24), untouched.clone()), "24")?;
    let (answer, list) = board(&[0, 2, 7], 400);
    ensure(answer == Ok(2) && list[..3] == [NOT_HELD, 5, NOT_HELD], "shown")?;
    ensure(list[3..] == untouched[3..], "places behind")?;
    ensure(board(&[], 400) == (Ok(0), untouched.clone()), "empty")
}

#[test]
fn answer_lists_are_left_alone() {
    assert_eq!(answer_list(reference()), Ok(()));
    assert_eq!(answer_list(fast()), Ok(()));
    assert_eq!(answer_list(Faulty::new(Error::None)), Ok(()));
    let cleared = answer_list(Faulty::new(Error::PlacesBehindCleared));
    assert_eq!(cleared, Err("places behind"));
}

#[test]
fn lists_let_through() {
    let text = format!("{YARD}board 2 3 3");
    caught(Error::EqualNeighbours, &text, "refused 23", "board 2 10 10");
    let tickets: Vec<String> = (1000..1181).map(|ticket| format!(" {ticket}")).collect();
    let text = format!("board 181{}", tickets.concat());
    let shown = format!("board 0{}", " 4294967295".repeat(181));
    caught(Error::OneTooManyAsked, &text, "refused 23", &shown);
    caught(Error::PlacesBeforeOrder, "board 1 3 3", "refused 23", "refused 24");
}

#[test]
fn boards_shown_otherwise() {
    let text = format!("{YARD}board 3 2 3 4");
    let right = "board 3 4294967295 10 20";
    caught(Error::ZeroForNotHeld, &text, right, "board 3 0 10 20");
    let stopped = "board 0 4294967295 4294967295 4294967295";
    caught(Error::StopsAtNotHeld, &text, right, stopped);
    let text = format!("{YARD}board 2 3 4");
    caught(Error::LookedIsAsked, &text, "board 3 10 20", "board 2 10 20");
}

/// What a board shows or counts otherwise than enquiries would is found without the
/// reference; what it lets through is not.
#[test]
fn demand_3_finds_what_it_should() {
    for error in [Error::ZeroForNotHeld, Error::LookedIsAsked, Error::StopsAtNotHeld] {
        assert!(breaks_demand_3("boards", error), "{error:?}");
    }
    for error in [Error::None, Error::OneTooManyAsked, Error::PlacesBeforeOrder] {
        assert!(!breaks_demand_3("boards", error), "{error:?}");
    }
}

/// The checker of demand 3 knows the reported starts, and learns the others from the board
/// as it does from enquiries.
#[test]
fn demand_3_from_boards() {
    let text = format!("{YARD}board 5 0 1 2 3 4\nenquire 3\nboard 1 4");
    let answers = script::reference_answers(&lines(&text));
    assert_eq!(demand::check(&lines(&text), &answers), Ok(()));
    let falsified = |place: usize, wrong: &str| {
        let mut answers = answers.clone();
        answers[place] = wrong.as_bytes().to_vec();
        demand::check(&lines(&text), &answers).expect_err(wrong).what
    };
    let board = |looked: u32, starts: [u32; 5]| {
        let starts: Vec<String> = starts.iter().map(|start| format!(" {start}")).collect();
        format!("board {looked}{}", starts.concat())
    };
    assert_eq!(script::show(&answers[6]), board(3, [NOT_HELD, 0, NOT_HELD, 10, 20]));
    let wrong = [
        ([0, 0, NOT_HELD, 10, 20], "shows 0 for ticket 0"),
        ([NOT_HELD, 1, NOT_HELD, 10, 20], "shows 1 for ticket 1"),
        ([NOT_HELD, 0, 0, 10, 20], "shows 0 for ticket 2"),
        ([NOT_HELD, 0, NOT_HELD, 2, 20], "shows 2 for ticket 3"),
        ([NOT_HELD, 0, NOT_HELD, NOT_HELD, 20], "shows 4294967295 for ticket 3"),
        // The enquiry has another start for it, and the second board for ticket 4.
        ([NOT_HELD, 0, NOT_HELD, 11, 20], "ticket 3: waiting"),
        ([NOT_HELD, 0, NOT_HELD, 10, 21], "shows 20 for ticket 4"),
    ];
    for (starts, what) in wrong {
        assert!(falsified(6, &board(3, starts)).contains(what), "{what}");
    }
    let right = [NOT_HELD, 0, NOT_HELD, 10, 20];
    assert_eq!(falsified(6, &board(4, right)), "the board looked at 4 charges of 3");
    assert!(falsified(8, "board 3").contains("is no answer"));
    assert!(falsified(8, "withdrawn").contains("is no answer"));
    // A refused board shows nothing, so ticket 4 stays unknown.
    let mut silent = answers.clone();
    silent[6] = b"refused 23".to_vec();
    assert_eq!(demand::check(&lines(&text), &silent), Ok(()));
    silent[8] = b"refused 23".to_vec();
    assert!(demand::check(&lines(&text), &silent).is_err());
}

/// Lists of every length that matters and of both wrong orders, every sort of ticket, and
/// answer lists of every length beside them.
#[test]
fn boards_of_all_sorts_occur() {
    let mut seen = BTreeSet::new();
    for number in 0..150 {
        let mut yard = Interpreter::new(reference());
        for line in generate::script_of_kind("boards", 1, number).unwrap().lines {
            if let Ok(Some(Call::Board { places, tickets })) = read_call(&line) {
                sorts_of_boards(places, &tickets, &mut seen);
                tickets.iter().for_each(|ticket| {
                    seen.insert(sort_of_ticket(yard.yard(), *ticket));
                });
            }
            yard.answer(&line, &mut Vec::new());
        }
    }
    assert_eq!(seen.len(), 6 + 2 + 7 + 6, "{seen:?}");
}

fn sorts_of_boards(places: u32, tickets: &[u32], seen: &mut BTreeSet<&'static str>) {
    let asked = tickets.len();
    let lengths = [(0, "none"), (1, "one"), (179, "179"), (180, "180"), (181, "181")];
    seen.extend(lengths.iter().filter(|(length, _)| *length == asked).map(|(_, name)| *name));
    seen.extend((asked > 900).then_some("a line full"));
    let neighbours = |wrong: fn(&[u32]) -> bool| tickets.windows(2).any(wrong);
    seen.extend(neighbours(|two| two[0] == two[1]).then_some("equal neighbours"));
    seen.extend(neighbours(|two| two[0] > two[1]).then_some("falling neighbours"));
    let asked = asked as u32;
    seen.extend((places == 0 && asked > 0).then_some("no places"));
    seen.extend((places + 1 == asked && asked > 1).then_some("one place fewer"));
    seen.extend((places == asked).then_some("as many places"));
    seen.extend((places > asked).then_some("more places"));
    seen.extend((places == 4_096).then_some("4096 places"));
    seen.extend((places == 4_097).then_some("4097 places"));
    seen.extend((places == u32::MAX).then_some("4294967295 places"));
}

fn sort_of_ticket(station: &trials::reference::Station, ticket: u32) -> &'static str {
    match (station.charge(ticket), ticket) {
        (_, 0) => "ticket 0",
        (_, u32::MAX) => "the largest ticket",
        (Some(charge), _) if charge.begun(station.clock) => "a charging ticket",
        (Some(_), _) => "a waiting ticket",
        (None, _) if ticket < station.next_ticket => "a dropped ticket",
        (None, _) => "a ticket never given",
    }
}
