//! The line protocol: what is a call, what is an error, and which error.

mod common;

use common::{expect, reference};
use trials::interpret;
use trials::protocol::{read_call, write_call, Call, Fault};
use trials::yard::{Opening, Order, Settings};

fn fault(text: &[u8]) -> Fault {
    read_call(text).expect_err(&String::from_utf8_lossy(text))
}

#[test]
fn unknown_calls() {
    for text in
        ["x", " latest 1", " ", "Latest 1", "latest\r", "\r", "latest\t1", "opens 1 100", "-"]
    {
        assert_eq!(fault(text.as_bytes()), Fault::UnknownCall, "{text:?}");
    }
    assert_eq!(fault(b"\xff\x00"), Fault::UnknownCall);
    // Preview and commit have taken its place.
    for text in ["order", "order 1 1 10 60", "order 1 1 10 60 0", "order x"] {
        assert_eq!(fault(text.as_bytes()), Fault::UnknownCall, "{text:?}");
    }
}

#[test]
fn words_that_are_no_numbers() {
    for text in [
        "open x 1",
        "open  1 720 1 1 0",
        "open 1 ",
        "open 1 720 ",
        "open 1 720 1 20 ",
        "open 1 720 1 20 0\r",
        "open 1 720 +1 20 0",
        "open 1 -1 1 20 0",
        "open 1 720 1_0 20 0",
        "open 1 720 1 20 -1",
        "open 1 720 1 20 0 ",
        "open 1 720 1 20 0 x",
        "open 1 720 1 20 0 1 ",
        "open 1 720 1 20 0 1 20 x 5",
        "offer ",
        "offer x",
        "offer 1 ",
        "offer 1 1  2",
        "latest ",
        "latest x",
        "lines 0x1",
        "lines 1 x",
        "enquire 99999999999x",
        "enquire \u{661}",
        "board ",
        "board x",
        "board 1 ",
        "board 1 2  3",
        "withdraw ",
        "withdraw 1x",
    ] {
        assert_eq!(fault(text.as_bytes()), Fault::NotANumber, "{text:?}");
    }
}

#[test]
fn numbers_of_more_than_32_bits() {
    for text in [
        "enquire 4294967296",
        "enquire 99999999999999999999999999999999",
        "enquire 00000000000000004294967296",
        "enquire 18446744073709551617",
        "open 4294967296 x",
        "open 1 4294967296 x",
        "open 1 720 1 20 0 4294967296",
        "offer 4294967296 x",
        "offer 1 4294967296",
        "latest 4294967296",
        "board 4294967296",
        "board 1 4294967296",
    ] {
        assert_eq!(fault(text.as_bytes()), Fault::NumberTooLarge, "{text:?}");
    }
    let largest = read_call(b"enquire 0004294967295").unwrap();
    assert_eq!(largest, Some(Call::Enquire { ticket: u32::MAX }));
}

/// Words are judged from left to right, and one too many is not judged.
#[test]
fn the_first_fault_counts() {
    assert_eq!(fault(b"commit 4294967296 x"), Fault::NumberTooLarge);
    assert_eq!(fault(b"commit x 4294967296"), Fault::NotANumber);
    assert_eq!(fault(b"commit 1 1 2 3 1"), Fault::MissingNumber);
    assert_eq!(fault(b"commit"), Fault::MissingNumber);
    assert_eq!(fault(b"commit 1 1 2 3 1 4 x"), Fault::ExtraNumber);
    assert_eq!(fault(b"commit 1 1 2 3 1 4 "), Fault::ExtraNumber);
    assert_eq!(fault(b"preview 1 1 2 3"), Fault::MissingNumber);
    assert_eq!(fault(b"preview 1 1 2 3 1 4"), Fault::ExtraNumber);
    assert_eq!(fault(b"board"), Fault::MissingNumber);
    assert_eq!(fault(b"board 4294967296 x"), Fault::NumberTooLarge);
    assert_eq!(fault(b"board x 4294967296"), Fault::NotANumber);
    assert_eq!(fault(b"withdraw"), Fault::MissingNumber);
    assert_eq!(fault(b"withdraw 1 x"), Fault::ExtraNumber);
    assert_eq!(fault(b"offer"), Fault::MissingNumber);
    assert_eq!(fault(b"lines"), Fault::MissingNumber);
    assert_eq!(fault(b"lines 1"), Fault::MissingNumber);
    assert_eq!(fault(b"lines 1 1 x"), Fault::ExtraNumber);
    assert_eq!(fault(b"latest"), Fault::MissingNumber);
    assert_eq!(fault(b"latest 1 "), Fault::ExtraNumber);
    assert_eq!(fault(b"latest 1 x"), Fault::ExtraNumber);
}

/// N14: the count, W and one to four feeders of three numbers each; where a feeder has begun the
/// others of its numbers are missing, and behind the fourth one there is one too many.
#[test]
fn openings_of_one_to_four_feeders() {
    for numbers in 0..20 {
        let line = [b"open".to_vec(), b" 7".repeat(numbers)].concat();
        let feeders = vec![Settings { limit: 7, percent: 7, tail: 7 }; numbers.max(2) / 3];
        let expected = match numbers {
            5 | 8 | 11 | 14 => {
                Ok(Some(Call::Open { opening: Opening { count: 7, site_limit: 7, feeders } }))
            }
            0..=13 => Err(Fault::MissingNumber),
            _ => Err(Fault::ExtraNumber),
        };
        assert_eq!(read_call(&line), expected, "{numbers}");
    }
    let four = b"open 4 9 1 20 0 1 20 0 1 20 0 1 20 0".to_vec();
    for last in [" ", " x", " 4294967296", " 1 20 0"] {
        let line = [four.clone(), last.as_bytes().to_vec()].concat();
        assert_eq!(fault(&line), Fault::ExtraNumber, "{last:?}");
    }
}

/// A list has as many starts as fit in a line; each is judged, wherever it stands.
#[test]
fn lists_of_any_length() {
    let offer = |count: usize| [b"offer 3".to_vec(), b" 7".repeat(count)].concat();
    for count in [0, 1, 179, 180, 181, 182, 500, 2044] {
        let starts = vec![7; count];
        assert_eq!(read_call(&offer(count)), Ok(Some(Call::Offer { feeder: 3, starts })));
        let board = [b"board".to_vec(), b" 7".repeat(count)].concat();
        let read = Call::Board { places: 7, tickets: vec![7; count.max(1) - 1] };
        assert_eq!(
            read_call(&board),
            if count == 0 { Err(Fault::MissingNumber) } else { Ok(Some(read)) }
        );
    }
    assert_eq!(fault(&offer(2045)), Fault::LineTooLong);
    for count in [179, 180, 181, 500] {
        let with = |last: &[u8]| [offer(count), last.to_vec()].concat();
        assert_eq!(fault(&with(b" x 4294967296")), Fault::NotANumber);
        assert_eq!(fault(&with(b" 4294967296 x")), Fault::NumberTooLarge);
        assert_eq!(fault(&with(b" ")), Fault::NotANumber);
    }
}

/// More starts than the station has places are a list of the wrong length.
#[test]
fn lists_too_long_are_refused() {
    let many = |count: usize| format!("offer 1{}", " 7".repeat(count));
    let text = [many(0), many(180), many(181), many(182), many(500), many(2044)].join("\n");
    let refused = "refused 10";
    expect(&text, &["plan 7 0 0 0", refused, refused, refused, refused, refused]);
}

/// The length is judged first, even in a comment.
#[test]
fn lines_of_4096_bytes() {
    let enquire = |zeros: usize| [b"enquire ".to_vec(), vec![b'0'; zeros], b"9".to_vec()].concat();
    assert_eq!(read_call(&enquire(4087)), Ok(Some(Call::Enquire { ticket: 9 })));
    assert_eq!(fault(&enquire(4088)), Fault::LineTooLong);
    assert_eq!(read_call(&[b'#'; 4096]), Ok(None));
    assert_eq!(fault(&[b'#'; 4097]), Fault::LineTooLong);
    assert_eq!(fault(&[b'x'; 4096]), Fault::UnknownCall);
}

#[test]
fn written_calls_are_read_back() {
    let order = Order { feeder: 1, line: 1, time: 10, due: 100, rate: 2 };
    for call in [
        Call::Open { opening: Opening::of_one(0, u32::MAX, 5) },
        Call::Open {
            opening: Opening { count: 0, site_limit: 9, feeders: vec![Settings::default(); 4] },
        },
        Call::Preview { order },
        Call::Commit { order: Order { feeder: 4, rate: 0, ..order }, shown: u32::MAX },
        Call::Move { target: 7, places: 360 },
        Call::Offer { feeder: 1, starts: vec![] },
        Call::Offer { feeder: u32::MAX, starts: vec![1, u32::MAX] },
        Call::Latest { feeder: 2 },
        Call::Lines { feeder: 0, allowance: 1_000 },
        Call::Enquire { ticket: 65_536 },
        Call::Board { places: 4_097, tickets: vec![] },
        Call::Board { places: 0, tickets: vec![3, 3, u32::MAX] },
        Call::Withdraw { ticket: u32::MAX },
    ] {
        assert_eq!(read_call(write_call(&call).as_bytes()), Ok(Some(call)));
    }
}

/// "Before the first `open` the station is that of 1, 100", and errors change
/// nothing.
#[test]
fn errors_change_nothing() {
    let text = "commit 1 1 5 5 1 0\n\n# comment\ncommit 1 1 5 5 0\nopen 1 720 2 50 0 0\n\
                commit 1 1 5 5 1 5 0\nopen 1 720 2 50\ncommit 1 1 5 10 1 5";
    let mut expected = vec!["ticket 1 start 0", "error missing number", "error missing number"];
    expected.extend(["error extra number", "error missing number", "ticket 2 start 5"]);
    expect(text, &expected);
}

/// Input that arrives one byte at a time.
struct Slow<'a>(&'a [u8]);

impl std::io::Read for Slow<'_> {
    fn read(&mut self, buffer: &mut [u8]) -> std::io::Result<usize> {
        let Some((first, rest)) = self.0.split_first() else { return Ok(0) };
        buffer[0] = *first;
        self.0 = rest;
        Ok(1)
    }
}

fn served(input: impl std::io::Read) -> String {
    let mut output = Vec::new();
    interpret::serve(reference(), input, &mut output).unwrap();
    String::from_utf8(output).unwrap()
}

/// A line cut anywhere by the reading, a line far too long, and a last line
/// without a line feed.
#[test]
fn pieces_of_input() {
    let mut input = b"commit 1 1 5 5 1 0\n\n".to_vec();
    input.extend(vec![b'z'; 200_000]);
    input.extend(b"\nlatest 1\nenquire 1");
    let expected = "ticket 1 start 0\nerror line too long\nplan 7 0 0 0\nwaiting 0 1\n";
    assert_eq!(served(&input[..]), expected);
    assert_eq!(served(Slow(&input)), expected);
    assert_eq!(served(&b""[..]), "");
    assert_eq!(served(&b"\n\n"[..]), "");
}
