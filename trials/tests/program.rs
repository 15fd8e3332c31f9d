//! Programs under trial, with the trials' own binary in their place.

use std::time::Duration;
use trials::compare::{compare, Choice, LOOPS};
use trials::program::{Answering, Program};

const BINARY: &str = env!("CARGO_BIN_EXE_trials");
const PATIENCE: Duration = Duration::from_secs(60);

fn choice(scripts: u64) -> Choice<'static> {
    Choice { scripts, seed: 21, without: Some(LOOPS), ..Choice::default() }
}

/// More than two batches, so that one of them ends without a line feed. Each has an
/// unopened script in front.
#[test]
fn reference_and_fast_program_as_programs() {
    for word in ["answers", "fast"] {
        let program = Program::new(&format!("{BINARY} {word}"), PATIENCE);
        let summary = compare(&program, &choice(90)).map_err(|failure| failure.what);
        assert_eq!(summary.map(|summary| summary.scripts), Ok(93), "{word}");
    }
}

#[test]
fn a_program_that_answers_nothing() {
    let program = Program::new(BINARY, PATIENCE);
    let failure = compare(&program, &choice(3)).unwrap_err();
    assert!(failure.what.contains("it ended with"), "{}", failure.what);
}

#[test]
fn a_program_that_is_not_there() {
    let outcome = Program::new("./no-such-program", PATIENCE).answers(b"latest 1\n");
    assert!(outcome.trouble.is_some_and(|trouble| trouble.contains("cannot be started")));
}

#[test]
fn a_program_that_does_not_end_in_time() {
    let program = Program::new(&format!("{BINARY} answers"), Duration::ZERO);
    let trouble = program.answers(b"latest 1\n").trouble;
    assert!(trouble.is_some_and(|trouble| trouble.contains("no end after")));
}

#[test]
fn a_benchmark_of_a_program_that_is_not_there() {
    let trouble = trials::benchmark::run("./no-such-program", None, 1, 1);
    assert!(trouble.is_err_and(|trouble| trouble.contains("cannot be started")));
}
