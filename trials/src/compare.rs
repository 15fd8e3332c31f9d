//! Feeds scripts to a program and compares each answer with the reference's.
//! The answers of the program are also given to the checker of demand 3, which
//! knows neither station nor reference.

use crate::bus::FILE_ERROR;
use crate::demand;
use crate::fill::{fill, unfill};
use crate::generate;
use crate::loops;
use crate::program::{Answering, Outcome};
use crate::reference::Station;
use crate::role::{Role, Trial};
use crate::script::{self, Line, Script};
use crate::shrink::shrink;

/// So many scripts are fed to one run of the program.
const BATCH: u64 = 40;

/// The name of the trials of the loop, among the kinds of scripts.
pub const LOOPS: &str = "loops";

#[derive(Default)]
pub struct Choice<'a> {
    pub scripts: u64,
    pub seed: u64,
    /// This kind only; else all of them, and the trials of the loop.
    pub kind: Option<&'a str>,
    /// All but this kind.
    pub without: Option<&'a str>,
    /// What the program is to be.
    pub role: Role,
}

impl Choice<'_> {
    fn wants_loops(&self) -> bool {
        self.kind.is_none_or(|kind| kind == LOOPS) && self.without != Some(LOOPS)
    }

    /// The script with this number, unless its kind is left out.
    pub fn script(&self, number: u64) -> Option<Script> {
        let script = match self.kind {
            None => Some(generate::script(self.seed, number)),
            Some(kind) => generate::script_of_kind(kind, self.seed, number),
        };
        script.filter(|script| self.without != Some(script.kind))
    }

    /// The scripts of one run. The first one opens no station; where all are so,
    /// each has a run of its own.
    fn batch(&self, first: u64) -> (Vec<Script>, u64) {
        let unopened = self.kind == Some(generate::UNOPENED);
        let until = self.scripts.min(first + if unopened { 1 } else { BATCH });
        let lead = generate::script_of_kind(generate::UNOPENED, self.seed, first);
        let others = (first..until).filter_map(|number| self.script(number));
        let batch = match unopened {
            true => others.collect(),
            false => lead.into_iter().chain(others).collect(),
        };
        (batch, until)
    }
}

/// All answers were as they should be.
#[derive(Debug, Default)]
pub struct Summary {
    pub scripts: u64,
    pub answers: usize,
}

/// The first failure, with the shortest script that still shows it.
#[derive(Debug)]
pub struct Failure {
    pub title: String,
    pub lines: Vec<Line>,
    pub what: String,
}

pub fn compare(program: &dyn Answering, choice: &Choice) -> Result<Summary, Failure> {
    let trial = Trial::new(program, choice.role);
    let mut summary = Summary::default();
    if choice.wants_loops() {
        summary = loops::compare(&trial)?;
    }
    let mut number = 0;
    while number < choice.scripts && choice.kind != Some(LOOPS) {
        let (batch, until) = choice.batch(number);
        // "A last line without a line feed counts": every other batch ends so.
        let unended = number / BATCH % 2 == 1;
        summary.scripts += batch.len() as u64;
        summary.answers += compare_batch(&trial, batch, unended)?;
        number = until;
    }
    Ok(summary)
}

fn compare_batch(trial: &Trial, batch: Vec<Script>, unended: bool) -> Result<usize, Failure> {
    let batch = trial.prepared(batch);
    let answers = trial
        .run(&batch, unended)
        .map_err(|difference| difference_found(trial, &batch.scripts, difference.place))?;
    check_demand(trial.role, &batch.scripts, &answers)?;
    Ok(answers.len())
}

/// Where answers differ first, and how.
pub struct Difference {
    pub place: usize,
    pub what: String,
}

pub fn difference(expected: &[Line], outcome: &Outcome) -> Option<Difference> {
    let found = &outcome.answers;
    let length = expected.len().max(found.len());
    let place = (0..length).find(|place| !same(expected.get(*place), found.get(*place)));
    if place.is_none() && outcome.trouble.is_none() {
        return None;
    }
    let word = |lines: &[Line], place| {
        lines.get(place).map_or("(none)".to_string(), |line: &Line| script::show(line))
    };
    let mut what = Vec::new();
    if let Some(place) = place {
        what.push(format!("answer {} should be: {}", place + 1, word(expected, place)));
        what.push(format!("but is: {}", word(found, place)));
    }
    if let Some(trouble) = &outcome.trouble {
        what.push(format!("the program: {trouble}"));
    }
    Some(Difference { place: place.unwrap_or(length), what: what.join("\n# ") })
}

/// The reason of an error with a file is the program's own.
fn same(expected: Option<&Line>, found: Option<&Line>) -> bool {
    let any_error = expected.is_some_and(|expected| expected == FILE_ERROR);
    expected == found || (any_error && found.is_some_and(|found| found.starts_with(b"error ")))
}

/// Names the script with the first difference and shrinks it. Should it be
/// right on its own, the scripts before it are needed too.
fn difference_found(trial: &Trial, batch: &[Script], place: usize) -> Failure {
    let mut before = 0;
    let mut number = 0;
    while number + 1 < batch.len() && before + batch[number].answers.len() <= place {
        before += batch[number].answers.len();
        number += 1;
    }
    let mut lines = batch[number].lines.clone();
    if trial.differs(&lines).is_none() {
        lines = batch[..=number].iter().flat_map(|script| script.lines.clone()).collect();
    }
    let lines = shrunk(trial, lines);
    let what = trial.differs(&lines).map_or_else(
        || "the difference is gone when the script is run again".to_string(),
        |difference| difference.what,
    );
    Failure { title: title(&batch[number]), lines, what }
}

/// The shortest script that still differs. Where a line goes, the starts of the
/// commits after it are not the earliest any more, so they are filled in anew, unless
/// the difference lies in how a start is written.
fn shrunk(trial: &Trial, lines: Vec<Line>) -> Vec<Line> {
    let filled = |lines: &[Line]| fill(Station::fresh(1, 100, 0), lines);
    let fails = |lines: &[Line]| trial.differs(lines).is_some();
    let open = unfill(&lines);
    match fails(&filled(&open)) {
        true => filled(&shrink(&open, |lines| fails(&filled(lines)))),
        false => shrink(&lines, fails),
    }
}

fn title(script: &Script) -> String {
    format!("script {} of kind {}", script.number, script.kind)
}

/// Demand 3 for each script on its own: each begins with a fresh station.
fn check_demand(role: Role, batch: &[Script], answers: &[Line]) -> Result<(), Failure> {
    let mut rest = answers;
    for script in batch {
        let (own, others) = rest.split_at(script.answers.len());
        rest = others;
        let Some((lines, own)) = role.list_of_calls(&script.lines, own) else { continue };
        if let Err(broken) = demand::check(&lines, &own) {
            let title = title(script);
            return Err(Failure { title, lines: script.lines.clone(), what: broken.to_string() });
        }
    }
    Ok(())
}
