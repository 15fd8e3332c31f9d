//! A program under trial: started afresh for each input, given its standard
//! input, and asked for its standard output.

use crate::feed::{feed, Way};
use crate::listen::Listener;
use crate::script::{self, Line};
use std::fs::{self, File};
use std::io::{Seek, Write};
use std::process::{Child, Command, ExitStatus, Stdio};
use std::sync::atomic::{AtomicUsize, Ordering};
use std::sync::Arc;
use std::thread;
use std::time::{Duration, Instant};

/// What came of a run. Trouble is anything but an orderly end.
#[derive(Clone, Debug, Default)]
pub struct Outcome {
    pub answers: Vec<Line>,
    pub trouble: Option<String>,
}

/// Anything that answers scripts: a program, or a yard inside the tests.
pub trait Answering {
    /// The answers to input that comes in this way.
    fn answers_to(&self, input: &[u8], way: &Way) -> Outcome;

    fn answers(&self, input: &[u8]) -> Outcome {
        self.answers_to(input, &Way::Pipe)
    }
}

pub struct Program {
    words: Vec<String>,
    /// "every call returns": a program that does not is ended after this time.
    patience: Duration,
}

impl Program {
    /// A path, with arguments after spaces.
    pub fn new(command: &str, patience: Duration) -> Program {
        Program::of_words(command.split_whitespace().map(String::from).collect(), patience)
    }

    /// For a path that may have spaces of its own.
    pub fn of_words(words: Vec<String>, patience: Duration) -> Program {
        Program { words, patience }
    }

    fn start(&self, stdin: Stdio) -> Result<Child, String> {
        let path = self.words.first().ok_or("no program named")?;
        Command::new(path)
            .args(&self.words[1..])
            .stdin(stdin)
            .stdout(Stdio::piped())
            .stderr(Stdio::piped())
            .spawn()
            .map_err(|error| format!("{path} cannot be started: {error}"))
    }

    fn run(&self, input: &[u8], way: &Way) -> Result<Outcome, String> {
        let stdin = match way {
            Way::File => Stdio::from(file_with(input).map_err(|error| error.to_string())?),
            _ => Stdio::piped(),
        };
        let mut child = self.start(stdin)?;
        let stdout = Listener::to(child.stdout.take().ok_or("no standard output")?);
        let stderr = Listener::to(child.stderr.take().ok_or("no standard error")?);
        let feeder = child.stdin.take().map(|stdin| {
            let (input, way, process) = (input.to_vec(), way.clone(), child.id());
            // An answer that does not come is told before the whole run is ended.
            let (patience, stdout) = (self.patience / 2, Arc::clone(&stdout));
            thread::spawn(move || feed(stdin, &input, &way, process, &stdout, patience))
        });
        let status = self.ended(&mut child, &stdout)?;
        let fed = feeder.map_or(Ok(()), |feeder| feeder.join().unwrap_or(Ok(())));
        stderr.wait(self.patience, |output| output.ended);
        Ok(outcome(&stdout.take(), &stderr.take(), status, fed))
    }

    /// The same program with its standard output turned elsewhere, as a shell is told it.
    pub fn with_output(&self, elsewhere: &str) -> Program {
        let run = format!("exec \"$@\" {elsewhere}");
        let shell = ["sh".to_string(), "-c".to_string(), run, "sh".to_string()];
        Program { words: [&shell[..], &self.words].concat(), patience: self.patience }
    }

    /// Runs it with nobody at the other end of its output, from before it is given anything;
    /// what is wrong if it does not end.
    pub fn ends_unheard(&self, input: &[u8]) -> Result<(), String> {
        let mut child = self.start(Stdio::piped())?;
        drop(child.stdout.take());
        let stderr = Listener::to(child.stderr.take().ok_or("no standard error")?);
        if let Some(mut stdin) = child.stdin.take() {
            // A program that ends early closes its input.
            drop(stdin.write_all(input));
        }
        self.ended(&mut child, &stderr).map(drop)
    }

    /// How it ended, or that it had to be ended.
    fn ended(&self, child: &mut Child, stdout: &Listener) -> Result<ExitStatus, String> {
        const PAUSE: Duration = Duration::from_millis(1);
        let begun = Instant::now();
        stdout.wait(self.patience, |output| output.ended);
        loop {
            match child.try_wait().map_err(|error| error.to_string())? {
                Some(status) => return Ok(status),
                None if begun.elapsed() < self.patience => thread::sleep(PAUSE),
                None => break,
            }
        }
        child.kill().and_then(|()| child.wait()).map_err(|error| error.to_string())?;
        Err(format!("no end after {} seconds", self.patience.as_secs()))
    }
}

/// All that is wrong apart from the answers themselves.
fn outcome(stdout: &[u8], stderr: &[u8], status: ExitStatus, fed: Result<(), String>) -> Outcome {
    let mut troubles: Vec<String> = fed.err().into_iter().collect();
    if !status.success() {
        troubles.push(format!("it ended with {status}"));
    }
    if !stderr.is_empty() {
        let text = script::show(stderr);
        troubles.push(format!("it wrote on standard error: {}", text.trim_end()));
    }
    if stdout.last().is_some_and(|byte| *byte != b'\n') {
        troubles.push("its last answer has no line feed".to_string());
    }
    let trouble = (!troubles.is_empty()).then(|| troubles.join("; "));
    Outcome { answers: script::split(stdout), trouble }
}

/// A file that has no name any more and goes when nobody reads it.
fn file_with(bytes: &[u8]) -> std::io::Result<File> {
    static FILES: AtomicUsize = AtomicUsize::new(0);
    let number = FILES.fetch_add(1, Ordering::Relaxed);
    let name = format!("trials-input-{}-{number}", std::process::id());
    let path = std::env::temp_dir().join(name);
    let mut file = File::options().read(true).write(true).create_new(true).open(&path)?;
    fs::remove_file(&path)?;
    file.write_all(bytes)?;
    file.rewind()?;
    Ok(file)
}

impl Answering for Program {
    fn answers_to(&self, input: &[u8], way: &Way) -> Outcome {
        self.run(input, way)
            .unwrap_or_else(|trouble| Outcome { answers: Vec::new(), trouble: Some(trouble) })
    }
}
