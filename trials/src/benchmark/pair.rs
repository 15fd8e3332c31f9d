//! The program under trial and the Rust program, measured side by side: their runs
//! alternate, so that whatever slows the machine down for a while slows both.

use super::sample::Sample;
use super::stopwatch::Stopwatch;
use crate::compare::difference;
use crate::program::{Answering, Program};
use crate::script::{self, Line};
use std::fs;
use std::path::{Path, PathBuf};
use std::time::Duration;

/// The program's time for a script that is long enough to be measured, in seconds.
pub const LONG_ENOUGH: f64 = 0.08;
const PATIENCE: Duration = Duration::from_secs(120);

pub struct Pair {
    program: Vec<String>,
    rust: Vec<String>,
    repeat: usize,
    /// For scripts; it goes when the pair goes.
    folder: PathBuf,
}

/// Seconds of both, and how many times as long the program takes.
pub struct Times {
    pub program: Sample,
    pub rust: Sample,
    pub ratio: Sample,
}

impl Times {
    /// Shared out among so many calls, in millionths of a second.
    pub fn micros(&self, calls: f64) -> [String; 3] {
        self.scaled(1e6 / calls)
    }

    /// Shared out among so many days, in thousandths of a second.
    pub fn millis(&self, days: f64) -> [String; 3] {
        self.scaled(1e3 / days)
    }

    fn scaled(&self, factor: f64) -> [String; 3] {
        let times = [self.program, self.rust].map(|sample| sample.times(factor).show());
        let [program, rust] = times;
        [program, rust, self.ratio.show_ratio()]
    }
}

impl Pair {
    pub fn new(program: &str, repeat: usize) -> Result<Pair, String> {
        let own = std::env::current_exe().map_err(|error| error.to_string())?;
        let rust = vec![own.to_string_lossy().into_owned(), "fast".to_string()];
        let program = program.split_whitespace().map(String::from).collect();
        Pair::of_words(program, rust, repeat, "pair")
    }

    /// The second in the place of the Rust program; the name is for the folder.
    pub fn of_words(
        program: Vec<String>,
        rust: Vec<String>,
        repeat: usize,
        name: &str,
    ) -> Result<Pair, String> {
        let name = format!("trials-benchmark-{}-{name}", std::process::id());
        let folder = std::env::temp_dir().join(name);
        fs::create_dir_all(&folder).map_err(|error| error.to_string())?;
        Ok(Pair { program, rust, repeat: repeat.max(1), folder })
    }

    /// The Rust program against itself: what it shows is noise.
    pub fn noise(&self) -> Result<Pair, String> {
        Pair::of_words(self.rust.clone(), self.rust.clone(), self.repeat, "noise")
    }

    pub fn programs(&self) -> [&[String]; 2] {
        [&self.program, &self.rust]
    }

    /// Both have to give the same answers, else their times say nothing.
    pub fn answers(&self, lines: &[Line]) -> Result<Vec<Line>, String> {
        let input = script::join(lines);
        let run = |words: &[String]| Program::of_words(words.to_vec(), PATIENCE).answers(&input);
        let expected = run(&self.rust);
        match (&expected.trouble, difference(&expected.answers, &run(&self.program))) {
            (Some(trouble), _) => Err(format!("the Rust program: {trouble}")),
            (None, Some(difference)) => Err(format!("answers differ: {}", difference.what)),
            (None, None) => Ok(expected.answers),
        }
    }

    fn keep(&self, name: &str, lines: &[Line]) -> Result<PathBuf, String> {
        let path = self.folder.join(name);
        fs::write(&path, script::join(lines)).map_err(|error| error.to_string())?;
        Ok(path)
    }

    /// The program's time for one run of a script, to choose a script's length.
    pub fn once(&self, lines: &[Line]) -> Result<f64, String> {
        Stopwatch::new(&self.program).time(&self.keep("once", lines)?)
    }

    /// What the lines of `with` cost that `without` does not have: the start of
    /// the process and all that both scripts share cancels.
    pub fn difference(&self, with: &[Line], without: &[Line]) -> Result<Times, String> {
        let (with, without) = (self.keep("with", with)?, self.keep("without", without)?);
        let watches = [Stopwatch::new(&self.program), Stopwatch::new(&self.rust)];
        let mut values = [Vec::new(), Vec::new(), Vec::new()];
        for number in 0..self.repeat {
            let [program, rust] = turn(&watches, number % 2, &with, &without)?;
            values[0].push(program);
            values[1].push(rust);
            values[2].push(program / rust);
        }
        let [program, rust, ratio] = values.map(Sample::of);
        Ok(Times { program, rust, ratio })
    }
}

/// One run of each script by each program. They take turns in going first too,
/// because the second finds a processor that the first has woken.
fn turn(
    watches: &[Stopwatch; 2],
    first: usize,
    with: &Path,
    without: &Path,
) -> Result<[f64; 2], String> {
    let mut times = [0.0; 2];
    for (script, sign) in [(with, 1.0), (without, -1.0)] {
        for place in [first, 1 - first] {
            times[place] += sign * watches[place].time(script)?;
        }
    }
    Ok(times)
}

impl Drop for Pair {
    fn drop(&mut self) {
        // A folder that stays behind does no harm.
        drop(fs::remove_dir_all(&self.folder));
    }
}
