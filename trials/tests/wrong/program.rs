//! A bus that keeps its image in a file, with a fault in how it does; only the tests run it.
//!
//!     wrong_bus FAULT FILE

use std::fs;
use std::io::{self, BufRead, Write};
use std::path::{Path, PathBuf};
use std::thread::sleep;
use std::time::Duration;
use trials::bus::files::Disk;
use trials::bus::images::Reference;
use trials::bus::keep::replace;
use trials::bus::Bus;

/// Keeps an image; what it does wrong is its name.
struct Keeper {
    fault: String,
    path: PathBuf,
    /// What is to be written later.
    due: Option<Vec<u8>>,
}

impl Keeper {
    /// Before the answer is printed.
    fn keep(&mut self, image: &[u8]) -> io::Result<()> {
        match self.fault.as_str() {
            // The image of this call is written with the next one.
            "LosesTheLastCall" => match self.due.replace(image.to_vec()) {
                Some(image) => replace(&self.path, &image),
                None => Ok(()),
            },
            "AnswersFirst" => {
                self.due = Some(image.to_vec());
                Ok(())
            }
            "WritesInPlace" => {
                let mut file = fs::File::create(&self.path)?;
                for half in image.chunks(2_304) {
                    file.write_all(half)?;
                    sleep(Duration::from_micros(100));
                }
                Ok(())
            }
            _ => replace(&self.path, image),
        }
    }

    /// After it.
    fn keep_late(&mut self) -> io::Result<()> {
        match (self.fault.as_str(), self.due.take()) {
            ("AnswersFirst", Some(image)) => replace(&self.path, &image),
            (_, due) => {
                self.due = due;
                Ok(())
            }
        }
    }
}

fn main() -> io::Result<()> {
    let words: Vec<String> = std::env::args().collect();
    let path = Path::new(&words[2]).to_path_buf();
    let mut bus = Bus::new(Reference, Disk);
    if let Ok(image) = fs::read(&path) {
        bus.set_image(image);
    }
    let mut keeper = Keeper { fault: words[1].clone(), path, due: None };
    for line in io::stdin().lock().split(b'\n') {
        let mut answer = Vec::new();
        let answered = bus.answer(&line?, &mut answer);
        keeper.keep(bus.image())?;
        if answered {
            answer.push(b'\n');
            io::stdout().write_all(&answer)?;
            io::stdout().flush()?;
        }
        keeper.keep_late()?;
    }
    Ok(())
}
