//! Trials of images (N8): images that were damaged, and valid ones that no list of calls
//! gives, read by a bus and followed by calls. Answers and the image left in the end are
//! compared with the second implementation's.
//!
//! - `lengths`: refusal 20
//! - `bytes`: single bytes that were changed, refusal 21
//! - `rules`: every rule of refusal 22 broken alone, with right checks, and its edges
//! - `spare`: bytes that should be zero, with right checks
//! - `edited`: random numbers in the place of fields, with right checks
//! - `elsewhere`: valid images from elsewhere
//! - `stations`: stations that images are made of

mod bytes;
mod edited;
mod elsewhere;
mod lengths;
mod rules;
mod spare;
mod stations;

use crate::bus::files::Shelf;
use crate::bus::images::Reference;
use crate::bus::{self, Bus};
use crate::compare::{difference, Failure, Summary};
use crate::folder::Folder;
use crate::program::Answering;
use crate::role::wrong_image;
use crate::script::{self, Line};
use std::fs;

/// An image and the calls after it was read.
pub struct Trial {
    pub title: String,
    pub image: Vec<u8>,
    pub calls: Vec<Line>,
}

/// So many images are read by one run of the program.
const BATCH: usize = 250;

/// All of them; `times` as many of those that are drawn by lot.
pub fn trials(seed: u64, times: u64) -> impl Iterator<Item = Trial> {
    let first = lengths::trials().into_iter().chain(rules::trials()).chain(bytes::trials());
    let drawn = edited::trials(seed, 3_000 * times).chain(elsewhere::trials(seed, 1_500 * times));
    first.chain(spare::trials()).chain(drawn)
}

pub fn compare(
    program: &dyn Answering,
    mut trials: impl Iterator<Item = Trial>,
) -> Result<Summary, Failure> {
    let folder = Folder::new("damage").map_err(|error| failure("no folder", error.to_string()))?;
    let mut summary = Summary::default();
    loop {
        let batch: Vec<Trial> = trials.by_ref().take(BATCH).collect();
        if batch.is_empty() {
            return Ok(summary);
        }
        summary.answers += compare_batch(program, &batch, &folder)?;
        summary.scripts += batch.len() as u64;
    }
}

fn failure(title: &str, what: String) -> Failure {
    Failure { title: title.to_string(), lines: Vec::new(), what }
}

/// Its image is read, the calls are made, and the image is written.
fn lines(trial: &Trial, stored: &str, written: &str) -> Vec<Line> {
    let mut lines = vec![format!("read {stored}").into_bytes()];
    lines.extend(trial.calls.clone());
    lines.push(format!("write {written}").into_bytes());
    lines
}

fn compare_batch(
    program: &dyn Answering,
    batch: &[Trial],
    folder: &Folder,
) -> Result<usize, Failure> {
    let (mut all, mut ends) = (Vec::new(), Vec::new());
    let mut shelf = Shelf::default();
    for (place, trial) in batch.iter().enumerate() {
        let [stored, written] =
            ["read", "written"].map(|name| folder.file(&format!("{name}-{place}")));
        fs::write(&stored, &trial.image).map_err(|error| failure("no file", error.to_string()))?;
        drop(fs::remove_file(&written));
        all.extend(lines(trial, &stored, &written));
        ends.push((script::answered(&all).count(), written));
        shelf.expect(&ends[place].1);
        shelf.stored.insert(stored.into_bytes(), trial.image.clone());
    }
    let mut bus = Bus::new(Reference, shelf);
    let expected = bus::answers_of(&mut bus, &all);
    let outcome = program.answers(&script::join(&all));
    if let Some(difference) = difference(&expected, &outcome) {
        let number = ends.iter().take_while(|(end, _)| *end <= difference.place).count();
        return Err(found(&batch[number.min(batch.len() - 1)], difference.what));
    }
    for (trial, (_, written)) in batch.iter().zip(&ends) {
        let image = bus.files().written[written.as_bytes()].as_deref().unwrap_or(&[]);
        if let Some(what) = wrong_image(image, &fs::read(written).unwrap_or_default()) {
            return Err(found(trial, what));
        }
    }
    Ok(expected.len())
}

/// The image is kept, so that the lines can be tried again.
fn found(trial: &Trial, what: String) -> Failure {
    let kept = std::env::temp_dir().join("trials-image");
    let what = match fs::write(&kept, &trial.image) {
        Ok(()) => what,
        Err(error) => format!("{what}\n# the image could not be kept: {error}"),
    };
    let path = kept.to_string_lossy();
    let lines = lines(trial, &path, &format!("{path}-written"));
    Failure { title: format!("an image: {}", trial.title), lines, what }
}

/// Calls of every kind but openings.
const CALLS: [&str; 9] = [
    "preview 1 1 5 50 1",
    "commit 1 1 5 50 1 100",
    "move 1000000 360",
    "offer 1",
    "latest 1",
    "lines 1 5",
    "enquire 3",
    "board 2 1 3",
    "withdraw 3",
];

/// Calls that have a refusal of their own, which comes after 20 to 22.
const REFUSED: [&str; 9] = [
    "preview 1 4 0 50 9",
    "commit 1 1 5 2000001 1 0",
    "move 1000001 0",
    "offer 1 1 2 3",
    "lines 1 0",
    "board 1 3 3",
    "withdraw 0",
    "latest 2",
    "lines 0 5",
];

/// All of them, lines that are no calls, openings that are refused, for what is passed in and
/// for feeders that no image holds (N14), and a call after each; an opening in the end where
/// `opened`.
fn all_calls(opened: bool) -> Vec<Line> {
    let mut calls: Vec<&str> = CALLS.to_vec();
    calls.extend(REFUSED);
    calls.extend(["enquire", "x", "open 1 720 61 100 0", "latest 1"]);
    calls.extend(["open 5 720 2 50 0", "open 2 0 2 50 0 61 50 0", "open 2 721 2 50 0 2 50 0"]);
    calls.extend(["open 2 720 2 50 0 5 20 0", "latest 1", "preview 2 1 5 50 1"]);
    if opened {
        calls.extend(["open 1 2 2 50 0", "commit 1 1 10 60 1 0"]);
    }
    calls.into_iter().map(|call| call.as_bytes().to_vec()).collect()
}
