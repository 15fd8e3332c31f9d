//! What the tests share. Not every test uses all of it.
#![allow(dead_code)]

pub mod faulty;

use faulty::{Error, Faulty};
use trials::feed::Way;
use trials::fill::{fill, unfill};
use trials::program::{Answering, Outcome};
use trials::script::{self, answers_of, Line};
use trials::yard::Yard;
use trials::{demand, generate};

/// Lines from text; the text ends with a line feed or not.
pub fn lines(text: &str) -> Vec<Line> {
    script::split(text.as_bytes())
}

pub fn answers<Y: Yard>(yard: Y, text: &str) -> Vec<String> {
    answers_of(yard, &lines(text)).iter().map(|line| script::show(line)).collect()
}

pub fn reference() -> trials::reference::Station {
    trials::reference::Station::fresh(1, 100, 0)
}

pub fn fast() -> trials::fast::Station {
    trials::fast::Station::fresh(1, 100, 0)
}

/// The reference and the fast program both give these answers.
pub fn expect(text: &str, expected: &[&str]) {
    assert_eq!(answers(reference(), text), expected, "reference:\n{text}");
    assert_eq!(answers(fast(), text), expected, "fast:\n{text}");
}

/// The rules give the last answer, the faulty yard another one.
pub fn caught(error: Error, text: &str, right: &str, wrong: &str) {
    let expected = answers(reference(), text);
    expect(text, &expected.iter().map(String::as_str).collect::<Vec<_>>());
    assert_eq!(expected.last().map(String::as_str), Some(right));
    assert_eq!(answers(Faulty::new(error), text).last().map(String::as_str), Some(wrong));
}

/// A yard in the place of a program.
pub struct Inside<F>(pub F);

impl<Y: Yard, F: Fn() -> Y> Answering for Inside<F> {
    fn answers_to(&self, input: &[u8], _: &Way) -> Outcome {
        Outcome { answers: answers_of((self.0)(), &script::split(input)), trouble: None }
    }
}

/// Whether the checker of demand 3 rejects the faulty yard's answers to one of some scripts. A
/// script is run as it stands, and with the starts that the yard itself would show. It
/// may take more orders than the reference, so more tickets are asked for at the end.
pub fn breaks_demand_3(kind: &str, error: Error) -> bool {
    let breaks =
        |lines: &[Line]| demand::check(lines, &answers_of(Faulty::new(error), lines)).is_err();
    (0..40).any(|number| {
        let mut lines = generate::script_of_kind(kind, 3, number).unwrap().lines;
        lines.extend((1..200).map(|ticket| format!("enquire {ticket}").into_bytes()));
        breaks(&lines) || breaks(&fill(Faulty::new(error), &unfill(&lines)))
    })
}
