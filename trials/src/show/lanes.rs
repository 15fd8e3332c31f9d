//! The weighted count of each line of each feeder, the spread between its lines and the sum of
//! the site, minute by minute, with how they stand to limit, bound and W.

use super::evening::Evening;
use crate::told::{self, Counts, Load};
use std::rc::Rc;

/// What a lane is about. Numbers are from 1.
#[derive(Clone, Copy, Debug, PartialEq, Eq)]
pub enum Subject {
    Line { feeder: usize, line: usize },
    Spread { feeder: usize },
    Site,
}

/// How a number stands to the most that there may be.
#[derive(Clone, Copy, Debug, PartialEq, Eq)]
pub enum Mark {
    Within,
    Reached,
    Broken,
    /// A start that counts here was not told.
    Unknown,
}

/// The same number in all minutes from one on, up to another.
#[derive(Clone, Copy, Debug, PartialEq, Eq)]
pub struct Step {
    pub from: u64,
    pub to: u64,
    pub value: u64,
    pub mark: Mark,
}

#[derive(Clone, Debug, PartialEq, Eq)]
pub struct Lane {
    pub subject: Subject,
    /// N, D or W.
    pub most: u64,
    pub steps: Vec<Step>,
}

impl Subject {
    pub fn name(self) -> String {
        match self {
            Subject::Line { feeder, line } => format!("feeder {feeder} line {line}"),
            Subject::Spread { feeder } => format!("feeder {feeder} spread"),
            Subject::Site => "site".to_string(),
        }
    }

    /// What the most is called.
    pub fn most(self) -> &'static str {
        match self {
            Subject::Line { .. } => "limit",
            Subject::Spread { .. } => "bound",
            Subject::Site => "W",
        }
    }

    fn value(self, counts: &Counts) -> i64 {
        match self {
            Subject::Line { feeder, line } => counts[feeder - 1][line - 1],
            Subject::Spread { feeder } => told::spread(&counts[feeder - 1]),
            Subject::Site => counts.iter().flatten().sum(),
        }
    }

    fn of_feeder(self, number: usize) -> bool {
        match self {
            Subject::Line { feeder, .. } | Subject::Spread { feeder } => feeder == number,
            Subject::Site => true,
        }
    }
}

impl Lane {
    /// The largest number in it.
    pub fn highest(&self) -> u64 {
        self.steps.iter().map(|step| step.value).max().unwrap_or(0)
    }

    /// Only what it has from a minute on, up to another.
    pub fn between(&self, first: u64, last: u64) -> Lane {
        let begin = self.steps.partition_point(|step| step.to <= first);
        let inside = self.steps[begin..].iter().take_while(|step| step.from < last);
        let cut = |step: &Step| Step { from: step.from.max(first), to: step.to.min(last), ..*step };
        Lane { subject: self.subject, most: self.most, steps: inside.map(cut).collect() }
    }

    /// The first minute in which it is broken, in words.
    pub fn broken(&self) -> Option<String> {
        let step = self.steps.iter().find(|step| step.mark == Mark::Broken)?;
        let (name, most) = (self.subject.name(), self.subject.most());
        Some(format!("minute {}: {name} has {}, {most} {}", step.from, step.value, self.most))
    }
}

/// All lanes: the lines and the spread of each feeder, then the site.
fn subjects(evening: &Evening) -> Vec<(Subject, u64)> {
    let mut subjects = Vec::new();
    for (place, feeder) in evening.site.feeders.iter().enumerate() {
        let number = place + 1;
        let line = |line| (Subject::Line { feeder: number, line }, feeder.limit);
        subjects.extend((1..=3).map(line));
        subjects.push((Subject::Spread { feeder: number }, feeder.bound));
    }
    subjects.push((Subject::Site, evening.site.limit));
    subjects
}

/// All that the lanes of a moment are made of.
#[derive(PartialEq, Eq)]
struct Known {
    loads: Vec<Load>,
    /// Feeders of charges whose start was not told.
    hidden: Vec<usize>,
    /// Up to which minute something is known of those all the same.
    clock: u64,
}

impl Known {
    fn at(evening: &Evening, moment: usize) -> Known {
        let charges = evening.charges.iter();
        let hidden: Vec<usize> = charges
            .clone()
            .filter(|charge| charge.unknown(moment))
            .map(|charge| charge.feeder as usize)
            .collect();
        let clock = if hidden.is_empty() { 0 } else { evening.clock_after(moment) };
        Known { loads: charges.filter_map(|charge| charge.load(moment)).collect(), hidden, clock }
    }

    fn lanes(&self, evening: &Evening) -> Rc<[Lane]> {
        let counts = told::counts(&self.loads);
        let lane = |(subject, most): (Subject, u64)| {
            let hidden = self.hidden.iter().any(|feeder| subject.of_feeder(*feeder));
            let known_to = if hidden { self.clock } else { u64::MAX };
            Lane { subject, most, steps: steps(subject, most, &counts, known_to) }
        };
        subjects(evening).into_iter().map(lane).collect()
    }
}

/// The lanes as they are known after the call of a moment, gone minutes and such to come.
pub fn at(evening: &Evening, moment: usize) -> Rc<[Lane]> {
    Known::at(evening, moment).lanes(evening)
}

/// The lanes after each call in turn, counted anew where something changed. They are not kept: those
/// of all calls of a week would fill the memory.
pub fn walk(evening: &Evening) -> impl Iterator<Item = Rc<[Lane]>> + '_ {
    let mut before: Option<(Known, Rc<[Lane]>)> = None;
    (0..evening.entries.len()).map(move |moment| {
        let known = Known::at(evening, moment);
        let lanes = match before.take() {
            Some((same, lanes)) if same == known => lanes,
            _ => known.lanes(evening),
        };
        before = Some((known, Rc::clone(&lanes)));
        lanes
    })
}

/// Equal neighbours are one step, and minutes with nothing are left out.
fn steps(subject: Subject, most: u64, counts: &[(u64, Counts)], known_to: u64) -> Vec<Step> {
    let mut steps: Vec<Step> = Vec::new();
    for pair in counts.windows(2) {
        let (from, to) = (pair[0].0, pair[1].0);
        let value = subject.value(&pair[0].1).max(0) as u64;
        let mark = match () {
            () if to > known_to => Mark::Unknown,
            () if value > most => Mark::Broken,
            () if value == most && value > 0 => Mark::Reached,
            () => Mark::Within,
        };
        match steps.last_mut() {
            Some(last) if last.to == from && last.value == value && last.mark == mark => {
                last.to = to;
            }
            _ => steps.push(Step { from, to, value, mark }),
        }
    }
    steps.retain(|step| step.value > 0 || step.mark == Mark::Unknown);
    steps
}
