//! The comparison finds every faulty loop, with consoles of one fault each in the
//! place of the program.

#[path = "broken/fault.rs"]
mod fault;

use fault::{Fault, FAULTS};
use std::time::Duration;
use trials::compare::{compare, Choice, Failure, Summary};
use trials::program::Program;

fn compared(fault: Fault) -> Result<Summary, Failure> {
    let command = format!("{} {fault:?}", env!("CARGO_BIN_EXE_broken"));
    let program = Program::new(&command, Duration::from_secs(4));
    let choice = Choice { scripts: 3, seed: 1, ..Choice::default() };
    compare(&program, &choice)
}

#[test]
fn without_a_fault_all_answers_are_right() {
    compared(Fault::None).unwrap_or_else(|failure| panic!("{}: {}", failure.title, failure.what));
}

#[test]
fn every_faulty_loop_is_found() {
    for fault in FAULTS {
        let failure = compared(fault).expect_err(&format!("{fault:?}"));
        assert!(failure.title.starts_with("the loop"), "{fault:?}: {}", failure.title);
    }
}
