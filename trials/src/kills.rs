//! A bus that keeps its image in a file is stopped at random moments of long evenings and
//! started again: "a stop at any moment leaves the image before or after the call", and no
//! call that was answered is lost. What the file should hold after each call is the second
//! implementation's image.

use crate::bus::files::Shelf;
use crate::bus::images::Reference;
use crate::bus::Bus;
use crate::compare::Failure;
use crate::folder::Folder;
use crate::generate;
use crate::listen::Listener;
use crate::random::Random;
use crate::script::{self, Line};
use std::fs;
use std::io::Write;
use std::process::{Child, ChildStdin, Command, Stdio};
use std::sync::Arc;
use std::time::{Duration, Instant};

/// An answer that does not come within this time is missing.
pub(crate) const PATIENCE: Duration = Duration::from_secs(10);
/// Calls of which the first life is made, to learn how long a call takes.
const FIRST: usize = 20;

/// What the stops came to.
#[derive(Clone, Copy, Debug, Default, PartialEq, Eq)]
pub struct Tally {
    pub stops: usize,
    pub answers: usize,
    /// Stops after which the file held the call in hand already.
    pub after: usize,
}

/// Evenings one after the other, and how far they have come.
pub(crate) struct Evenings {
    seed: u64,
    number: u64,
    lines: Vec<Line>,
    bus: Bus<Reference, Shelf>,
}

impl Evenings {
    pub(crate) fn new(seed: u64) -> Evenings {
        let bus = Bus::new(Reference, Shelf::default());
        Evenings { seed, number: 0, lines: Vec::new(), bus }
    }

    /// The next so many lines, with the answers and images that they should give.
    pub(crate) fn next(&mut self, count: usize) -> Vec<Step> {
        while self.lines.len() < count {
            let script = generate::script_of_kind("evening", self.seed, self.number);
            self.lines.extend(script.unwrap_or_default().lines);
            self.number += 1;
        }
        let before = self.bus.image().to_vec();
        let steps = self.lines[..count].iter().map(|line| {
            let mut answer = Vec::new();
            self.bus.answer(line, &mut answer);
            Step { line: line.clone(), answer, image: self.bus.image().to_vec() }
        });
        let steps = steps.collect();
        self.bus.set_image(before);
        steps
    }

    pub(crate) fn image(&self) -> &[u8] {
        self.bus.image()
    }

    /// What a line that changes nothing would be answered.
    pub(crate) fn answer(&mut self, line: &[u8]) -> Line {
        let mut answer = Vec::new();
        self.bus.answer(line, &mut answer);
        answer
    }

    /// So many lines have been carried out, and this is the image.
    pub(crate) fn go_on(&mut self, count: usize, image: &[u8]) {
        self.lines.drain(..count);
        self.bus.set_image(image.to_vec());
    }
}

pub(crate) struct Step {
    pub(crate) line: Line,
    pub(crate) answer: Line,
    pub(crate) image: Vec<u8>,
}

/// From a start of the program to its stop.
struct Life {
    child: Child,
    stdin: ChildStdin,
    stdout: Arc<Listener>,
}

impl Life {
    fn begin(words: &[String], file: &str) -> Result<Life, String> {
        let path = words.first().ok_or("no program named")?;
        let mut child = Command::new(path)
            .args(&words[1..])
            .arg(file)
            .stdin(Stdio::piped())
            .stdout(Stdio::piped())
            .spawn()
            .map_err(|error| format!("{path} cannot be started: {error}"))?;
        let stdin = child.stdin.take().ok_or("no standard input")?;
        let stdout = Listener::to(child.stdout.take().ok_or("no standard output")?);
        Ok(Life { child, stdin, stdout })
    }

    /// A program that has ended closes its input, and its answers will tell.
    fn send(&mut self, steps: &[Step]) {
        let lines: Vec<Line> = steps.iter().map(|step| step.line.clone()).collect();
        drop(self.stdin.write_all(&script::join(&lines)).and_then(|()| self.stdin.flush()));
    }

    fn wait_for(&self, answers: usize) -> Result<(), String> {
        match self.stdout.wait(PATIENCE, |output| output.ended || output.lines >= answers) {
            true => Ok(()),
            false => Err(format!("answer {answers} does not come")),
        }
    }

    /// Ends it as a failing supply would, and gives the answers that were printed whole.
    fn stop(mut self) -> Result<Vec<Line>, String> {
        self.child.kill().and_then(|()| self.child.wait()).map_err(|error| error.to_string())?;
        self.stdout.wait(PATIENCE, |output| output.ended);
        let bytes = self.stdout.take();
        let whole = bytes.iter().rposition(|byte| *byte == b'\n').map_or(0, |feed| feed + 1);
        Ok(script::split(&bytes[..whole]))
    }
}

/// Nearer to the moment than a sleep would come.
fn pause(length: Duration) {
    let begun = Instant::now();
    while begun.elapsed() < length {
        std::hint::spin_loop();
    }
}

struct Killer<'a> {
    words: &'a [String],
    file: String,
    random: Random,
    evenings: Evenings,
    /// How long a call takes, and the first one with the start of the program.
    call: Duration,
    start: Duration,
    tally: Tally,
}

impl Killer<'_> {
    /// Calls one by one, or many at once; the stop comes after some part of the last.
    fn live(&mut self) -> Result<(), String> {
        let at_once = self.random.percent(40);
        let count = self.random.between(1, if at_once { 25 } else { 8 }) as usize;
        let steps = self.evenings.next(count);
        let mut life = Life::begin(self.words, &self.file)?;
        let mut moment = self.call * self.random.below(1_500) as u32 / 1_000;
        if at_once {
            life.send(&steps);
            moment = moment * count as u32 + self.start;
        } else {
            for place in 0..count - 1 {
                life.send(&steps[place..=place]);
                life.wait_for(place + 1)?;
            }
            life.send(&steps[count - 1..]);
            if count == 1 {
                moment += self.start;
            }
            if self.random.percent(20) {
                life.wait_for(count)?;
                moment = Duration::ZERO;
            }
        }
        pause(moment);
        let answers = life.stop()?;
        let most = if at_once { count } else { count.min(answers.len() + 1) };
        self.judge(&steps, &answers, most)
    }

    /// The answers are those of the first calls, and the file holds the image after these
    /// or after some more, up to `most`.
    fn judge(&mut self, steps: &[Step], answers: &[Line], most: usize) -> Result<(), String> {
        for (step, answer) in steps.iter().zip(answers) {
            if step.answer != *answer {
                let line = script::show(&step.line);
                let (should, is) = (script::show(&step.answer), script::show(answer));
                return Err(format!("{line}: the answer should be {should}, but is {is}"));
            }
        }
        if answers.len() > steps.len() {
            return Err("more answers than calls".to_string());
        }
        let found = fs::read(&self.file).unwrap_or_default();
        let before = self.evenings.bus.image().to_vec();
        let image = |done: usize| if done == 0 { &before } else { &steps[done - 1].image };
        // Before the first call there may be no file.
        let none_yet =
            |done: usize| done == 0 && found.is_empty() && before.iter().all(|byte| *byte == 0);
        let done = (answers.len()..=most).find(|done| *image(*done) == found || none_yet(*done));
        let Some(done) = done else {
            let earlier = (0..answers.len()).any(|done| *image(done) == found);
            let what =
                if earlier { "a call that was answered is lost" } else { "no image of a call" };
            let (length, answered) = (found.len(), answers.len());
            return Err(format!("{what}: the file has {length} bytes after {answered} answers"));
        };
        self.tally.stops += 1;
        self.tally.answers += answers.len();
        self.tally.after += usize::from(done > answers.len());
        let image = image(done).clone();
        self.evenings.go_on(done, &image);
        Ok(())
    }

    /// Some calls without a stop among them.
    fn first(&mut self) -> Result<(), String> {
        let steps = self.evenings.next(FIRST);
        let begun = Instant::now();
        let mut life = Life::begin(self.words, &self.file)?;
        life.send(&steps[..1]);
        life.wait_for(1)?;
        self.start = begun.elapsed();
        let begun = Instant::now();
        for place in 1..FIRST {
            life.send(&steps[place..=place]);
            life.wait_for(place + 1)?;
        }
        self.call = begun.elapsed() / (FIRST as u32 - 1);
        let answers = life.stop()?;
        match answers.len() {
            FIRST => self.judge(&steps, &answers, FIRST),
            given => Err(format!("{given} answers to {FIRST} calls")),
        }
    }
}

/// So many stops, or as many as there is time for.
pub fn compare(
    words: &[String],
    seed: u64,
    stops: usize,
    longest: Duration,
) -> Result<Tally, Failure> {
    let failure = |what: String| Failure {
        title: "a bus that is stopped and started again".to_string(),
        lines: Vec::new(),
        what,
    };
    let folder = Folder::new("kills").map_err(|error| failure(error.to_string()))?;
    let mut killer = Killer {
        words,
        file: folder.file("image"),
        random: Random::new(seed),
        evenings: Evenings::new(seed),
        call: Duration::ZERO,
        start: Duration::ZERO,
        tally: Tally::default(),
    };
    let begun = Instant::now();
    killer.first().map_err(&failure)?;
    while killer.tally.stops < stops && begun.elapsed() < longest {
        killer.live().map_err(|what| {
            let stops = killer.tally.stops;
            failure(format!("after {stops} stops: {what}"))
        })?;
    }
    Ok(killer.tally)
}
