//! A bus that keeps its image in a file, stopped on purpose after it has kept the image of a
//! call and before it has printed the answer: nobody reads its output, and so many answers
//! stand in the pipe that this one has no room.

use crate::compare::Failure;
use crate::folder::Folder;
use crate::kills::{Evenings, Step, PATIENCE};
use crate::script::{self, Line};
use std::fs;
use std::io::{Read, Write};
use std::process::{Command, Stdio};
use std::thread;
use std::time::{Duration, Instant};

/// A pipe of Linux holds so many pages of so many bytes.
const PAGES: usize = 16;
const PAGE: usize = 4_096;
/// Calls made before the first stop, an opening first.
const FIRST: usize = 20;

/// What stands in a pipe. A text goes behind what its last page holds where there is room for
/// all of it, or else to a page of its own.
#[derive(Default)]
struct Pipe {
    pages: usize,
    room: usize,
}

impl Pipe {
    fn takes(&self, length: usize) -> bool {
        length <= self.room || self.pages < PAGES
    }

    fn put(&mut self, length: usize) {
        if length > self.room {
            self.pages += 1;
            self.room = PAGE;
        }
        self.room -= length;
    }
}

/// Lines that change no image, with their answers: those of boards are the longest, that of an
/// enquiry is shorter than any answer of a call that changes the image.
fn filling(evenings: &mut Evenings) -> Vec<(Line, Line)> {
    let asked: Vec<String> = (60_000..60_180).map(|ticket| ticket.to_string()).collect();
    let board = format!("board 180 {}", asked.join(" ")).into_bytes();
    let mut pipe = Pipe::default();
    let mut filled = Vec::new();
    for line in [board, b"enquire 0".to_vec()] {
        let answer = evenings.answer(&line);
        while pipe.takes(answer.len() + 1) {
            pipe.put(answer.len() + 1);
            filled.push((line.clone(), answer.clone()));
        }
    }
    filled
}

/// The next call that changes the image; those before it are not made.
fn next_change(evenings: &mut Evenings) -> Step {
    loop {
        let before = evenings.image().to_vec();
        let step = evenings.next(1).remove(0);
        if step.image != before {
            return step;
        }
        evenings.go_on(1, &before);
    }
}

/// Runs the program on these lines, unheard, until the file holds this image, and gives what it
/// printed before it was stopped.
fn run_until(
    words: &[String],
    file: &str,
    lines: &[Line],
    image: &[u8],
) -> Result<Vec<Line>, String> {
    let path = words.first().ok_or("no program named")?;
    let mut child = Command::new(path)
        .args(&words[1..])
        .arg(file)
        .stdin(Stdio::piped())
        .stdout(Stdio::piped())
        .spawn()
        .map_err(|error| format!("{path} cannot be started: {error}"))?;
    let mut stdin = child.stdin.take().ok_or("no standard input")?;
    let mut stdout = child.stdout.take().ok_or("no standard output")?;
    let sent = stdin.write_all(&script::join(lines)).and_then(|()| stdin.flush());
    let begun = Instant::now();
    let kept = || fs::read(file).is_ok_and(|found| found == image);
    while sent.is_ok() && !kept() && begun.elapsed() < PATIENCE {
        thread::sleep(Duration::from_millis(1));
    }
    let is_kept = kept();
    child.kill().and_then(|()| child.wait()).map_err(|error| error.to_string())?;
    if !is_kept {
        return Err("an image is not kept before its answer is printed".to_string());
    }
    let mut bytes = Vec::new();
    stdout.read_to_end(&mut bytes).map_err(|error| error.to_string())?;
    Ok(script::split(&bytes))
}

/// Makes the calls of a first life, each answered.
fn begin(evenings: &mut Evenings, words: &[String], file: &str) -> Result<(), String> {
    let steps = evenings.next(FIRST);
    let lines: Vec<Line> = steps.iter().map(|step| step.line.clone()).collect();
    let image = steps[FIRST - 1].image.clone();
    run_until(words, file, &lines, &image)?;
    evenings.go_on(FIRST, &image);
    Ok(())
}

fn stop(evenings: &mut Evenings, words: &[String], file: &str) -> Result<(), String> {
    let step = next_change(evenings);
    let (mut lines, answers): (Vec<Line>, Vec<Line>) = filling(evenings).into_iter().unzip();
    lines.push(step.line.clone());
    let printed = run_until(words, file, &lines, &step.image)?;
    if printed.len() > answers.len() {
        return Err("the answer has room in the pipe".to_string());
    }
    if printed != answers {
        return Err("other answers before the stop".to_string());
    }
    evenings.go_on(1, &step.image);
    Ok(())
}

/// So many stops, each between keeping an image and answering, and the program goes on from
/// the image each time.
pub fn compare(words: &[String], seed: u64, stops: usize) -> Result<(), Failure> {
    let failure = |what: String| Failure {
        title: "a bus that is stopped between keeping an image and answering".to_string(),
        lines: Vec::new(),
        what,
    };
    let folder = Folder::new("between").map_err(|error| failure(error.to_string()))?;
    let file = folder.file("image");
    let mut evenings = Evenings::new(seed);
    begin(&mut evenings, words, &file).map_err(&failure)?;
    for done in 0..stops {
        stop(&mut evenings, words, &file)
            .map_err(|what| failure(format!("after {done} such stops: {what}")))?;
    }
    Ok(())
}
