//! The bus program's lines (N8): "it holds an image, and each of its calls restores, acts
//! and saves". The console's lines are answered over the image, with refusals 20 to 22
//! before the call's own. "A bus call compares with the image as it was lent and adds this
//! number to its answer" (N9): ` blocks B` at the end of each answer to a call that is no
//! refusal. There are two lines more, which are no calls:
//!
//! | line | answer |
//! | --- | --- |
//! | `read FILE` | `read BYTES`, or `error` and a reason |
//! | `write FILE` | `written BYTES`, or `error` and a reason |
//!
//! - `images`: what saves and restores, so that the fast program and the faulty ones of
//!   the tests stand in the same bus
//! - `files`: the files that lines name
//! - `keep`: the image in a file from call to call

pub mod files;
pub mod images;
pub mod keep;

use crate::image::{refuse_size, BYTES};
use crate::interpret::Interpreter;
use crate::protocol::{self, read_call, Call, LONGEST_LINE};
use crate::script::Line;
use crate::yard::Refusal;
use files::{Files, Shelf};
use images::{Images, Reference};

/// "whatever its length up to 8,192"
pub const LONGEST_FILE: usize = 8_192;
/// The reason is left to the program: in the place of an expected answer this stands for
/// any `error` with a reason.
pub const FILE_ERROR: &[u8] = b"error the file cannot be read or written";

pub struct Bus<I: Images, F: Files> {
    images: I,
    files: F,
    interpreter: Interpreter<I::Yard>,
    image: Vec<u8>,
    /// The image as it was lent to the call in hand.
    lent: Vec<u8>,
}

impl<I: Images, F: Files> Bus<I, F> {
    /// "Before anything its buffer is 4,608 zero bytes."
    pub fn new(images: I, files: F) -> Bus<I, F> {
        let interpreter = Interpreter::new(images.fresh());
        Bus { images, files, interpreter, image: vec![0; BYTES], lent: Vec::new() }
    }

    pub fn image(&self) -> &[u8] {
        &self.image
    }

    pub fn set_image(&mut self, image: Vec<u8>) {
        self.image = image;
    }

    pub fn files(&self) -> &F {
        &self.files
    }

    pub fn files_mut(&mut self) -> &mut F {
        &mut self.files
    }

    /// Appends the answer to a line and says whether there was one.
    pub fn answer(&mut self, text: &[u8], out: &mut Vec<u8>) -> bool {
        if let Some(line) = FileLine::of(text) {
            let answered = self.carry_out_file(&line);
            out.extend(answered.unwrap_or(FILE_ERROR.to_vec()));
            return true;
        }
        match read_call(text) {
            Ok(None) => return false,
            Ok(Some(call)) => {
                if let Err(refusal) = self.try_call(&call, out) {
                    protocol::write_refusal(out, refusal);
                }
            }
            Err(fault) => protocol::write_fault(out, fault),
        }
        true
    }

    /// "each of its calls restores, acts and saves"; "opening reads no image: 20 only";
    /// "a refusal leaves the image as it is". A site of several feeders is opened and cannot be
    /// saved (N14): then 22 stands alone, after the opening's own refusals.
    fn try_call(&mut self, call: &Call, out: &mut Vec<u8>) -> Result<(), Refusal> {
        let length = out.len();
        let made = self.make_call(call, out);
        if made.is_err() {
            out.truncate(length);
        }
        made
    }

    fn make_call(&mut self, call: &Call, out: &mut Vec<u8>) -> Result<(), Refusal> {
        *self.interpreter.yard_mut() = match call {
            Call::Open { .. } => {
                refuse_size(&self.image)?;
                self.images.fresh()
            }
            _ => self.images.restore(&self.image)?,
        };
        self.interpreter.try_call(call, out)?;
        self.lent.clone_from(&self.image);
        let blocks = self.images.save(self.interpreter.yard(), &self.lent, &mut self.image)?;
        out.extend(format!(" blocks {blocks}").into_bytes());
        Ok(())
    }

    /// None is an error, which "leaves the buffer".
    fn carry_out_file(&mut self, line: &FileLine) -> Option<Line> {
        match line {
            FileLine::Read(path) => {
                let bytes = self.files.read(path).filter(|bytes| bytes.len() <= LONGEST_FILE)?;
                self.image = bytes;
                Some(format!("read {}", self.image.len()).into_bytes())
            }
            FileLine::Write(path) => {
                self.files.write(path, &self.image)?;
                Some(format!("written {}", self.image.len()).into_bytes())
            }
            FileLine::Unreadable => None,
        }
    }
}

/// A line about a file.
enum FileLine<'a> {
    Read(&'a [u8]),
    Write(&'a [u8]),
    /// The word without one path behind it.
    Unreadable,
}

impl FileLine<'_> {
    fn of(text: &[u8]) -> Option<FileLine<'_>> {
        let mut words = text.split(|byte| *byte == b' ');
        let word = words.next().filter(|word| [&b"read"[..], b"write"].contains(word))?;
        if text.len() > LONGEST_LINE {
            return None;
        }
        let path = words.next().filter(|path| !path.is_empty());
        Some(match (path, words.next()) {
            (Some(path), None) if word == b"read" => FileLine::Read(path),
            (Some(path), None) => FileLine::Write(path),
            _ => FileLine::Unreadable,
        })
    }
}

/// The answers of the second implementation's bus.
pub fn answers(lines: &[Line]) -> Vec<Line> {
    answers_of(&mut Bus::new(Reference, Shelf::default()), lines)
}

pub fn answers_of<I: Images, F: Files>(bus: &mut Bus<I, F>, lines: &[Line]) -> Vec<Line> {
    let mut answers = Vec::new();
    for line in lines {
        let mut answer = Vec::new();
        if bus.answer(line, &mut answer) {
            answers.push(answer);
        }
    }
    answers
}
