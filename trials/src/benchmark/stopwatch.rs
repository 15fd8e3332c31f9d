//! The time that a program takes for a script.
//!
//! Where the system tells it, this is the processor time of the process in
//! nanoseconds: it leaves out the turns that other programs had. Elsewhere it is
//! the time that passed.

use std::fs::{self, File};
use std::path::Path;
use std::process::{Child, Command, Stdio};
use std::thread;
use std::time::{Duration, Instant};

/// Between two looks at whether the program has ended.
const PAUSE: Duration = Duration::from_micros(200);
/// A program that takes longer for a script is ended.
const PATIENCE: Duration = Duration::from_secs(120);

pub struct Stopwatch {
    words: Vec<String>,
}

/// Whether processor time is known here.
pub fn knows_processor_time() -> bool {
    processor_time("self").is_some()
}

/// The first number of `schedstat` is the time spent on a processor.
fn processor_time(process: &str) -> Option<f64> {
    let text = fs::read_to_string(format!("/proc/{process}/schedstat")).ok()?;
    let nanoseconds: f64 = text.split(' ').next()?.parse().ok()?;
    Some(nanoseconds / 1e9)
}

/// Ended, but still known to the system until somebody waits for it.
fn has_ended(process: &str) -> bool {
    let text = fs::read_to_string(format!("/proc/{process}/stat")).unwrap_or_default();
    text.rsplit_once(") ").is_some_and(|(_, state)| state.starts_with('Z'))
}

impl Stopwatch {
    /// A path and its arguments.
    pub fn new(words: &[String]) -> Stopwatch {
        Stopwatch { words: words.to_vec() }
    }

    /// Seconds. The answers are thrown away: only the program's own time counts.
    pub fn time(&self, script: &Path) -> Result<f64, String> {
        let path = self.words.first().ok_or("no program named")?;
        let input = File::open(script).map_err(|error| error.to_string())?;
        let begun = Instant::now();
        let mut child = Command::new(path)
            .args(&self.words[1..])
            .stdin(input)
            .stdout(Stdio::null())
            .spawn()
            .map_err(|error| format!("{path} cannot be started: {error}"))?;
        let on_processor = if knows_processor_time() { watch(&mut child)? } else { None };
        let status = child.wait().map_err(|error| error.to_string())?;
        let passed = begun.elapsed().as_secs_f64();
        match status.success() {
            true => Ok(on_processor.unwrap_or(passed)),
            false => Err(format!("{path} ended with {status}")),
        }
    }
}

fn watch(child: &mut Child) -> Result<Option<f64>, String> {
    let process = child.id().to_string();
    let begun = Instant::now();
    while !has_ended(&process) {
        if begun.elapsed() > PATIENCE {
            child.kill().and_then(|()| child.wait()).map_err(|error| error.to_string())?;
            return Err(format!("no end after {} seconds", PATIENCE.as_secs()));
        }
        thread::sleep(PAUSE);
    }
    Ok(processor_time(&process))
}
