//! An evening to look at: what is read out of calls and answers, what is red, what is drawn, and
//! what is written to files.

#[path = "../common/mod.rs"]
mod common;

mod drawings;
mod files;
mod reading;
mod red;

use common::lines;
use trials::generate;
use trials::script::{self, Script};
use trials::show::ask::asked;
use trials::show::lanes::{self, Mark, Subject};
use trials::show::{read, Evening, Story};

/// The example evening.
pub const EVENING: &str = include_str!("../../scripts/evening.txt");

/// The story of a script with the answers of the reference, asked as `./yard` asks.
pub fn story(text: &str) -> Story {
    let lines = asked(&lines(text));
    read(&lines, &script::reference_answers(&lines))
}

/// The only station with charges.
pub fn evening(story: &Story) -> &Evening {
    story.evenings.iter().find(|evening| !evening.charges.is_empty()).expect("a charge")
}

/// The story of a script with one of the reference's answers replaced.
pub fn falsified(text: &str, right: &str, wrong: &str) -> Story {
    let lines = lines(text);
    let mut answers = script::reference_answers(&lines);
    let place = answers.iter().position(|answer| script::show(answer) == right);
    answers[place.unwrap_or_else(|| panic!("no answer '{right}'"))] = wrong.into();
    read(&lines, &answers)
}

pub fn generated(kind: &str, seed: u64, number: u64) -> Script {
    generate::script_of_kind(kind, seed, number).expect("a script of this kind")
}

/// The steps of a lane at a moment, as (from, to, value, mark).
pub fn steps(evening: &Evening, moment: usize, subject: Subject) -> Vec<(u64, u64, u64, Mark)> {
    let lanes = lanes::at(evening, moment);
    let lane = lanes.iter().find(|lane| lane.subject == subject).expect("a lane");
    lane.steps.iter().map(|step| (step.from, step.to, step.value, step.mark)).collect()
}

/// Feeder 1 with limit 2, bound 2 and a tail of one minute, feeder 2 with limit 3, bound 3 and
/// none, under W 5. Two charges of 10 minutes on line 1 of feeder 1, one of rate 2 and 5 minutes on
/// line 3 of feeder 2, one there that has to wait for the site.
pub const SITE: &str = "open 2 5 2 100 1 3 100 0
commit 1 1 10 60 1 0
commit 1 1 10 60 1 0
commit 2 3 5 60 2 0
commit 2 1 4 3 2 5
";
