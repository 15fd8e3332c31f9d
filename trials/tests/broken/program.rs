//! A console with one fault in its loop, named by the word after the program. The
//! reference answers, and without a fault the loop is right. Only the tests run it.

mod fault;

use fault::{Fault, FAULTS};
use std::io::{self, Read, Write};
use trials::interpret::Interpreter;
use trials::protocol::LONGEST_LINE;
use trials::reference::Station;

const BLOCK: usize = 1 << 16;
/// The buffer is written once it has no room for one more answer.
const BUFFER: usize = 1 << 16;
const LONGEST_ANSWER: usize = 4_096;

struct Loop {
    fault: Fault,
    yard: Interpreter<Station>,
    /// The station that the block began with.
    first: Interpreter<Station>,
    /// The line that is not finished yet, its last part, and how many it has.
    line: Vec<u8>,
    last_part: usize,
    parts: usize,
    /// The next line gets no answer.
    swallow: bool,
    buffer: Vec<u8>,
    /// What was written last.
    written: Vec<u8>,
}

impl Loop {
    fn new(fault: Fault) -> Loop {
        let limit = if fault == Fault::FirstStation { 2 } else { 1 };
        let yard = Interpreter::new(Station::fresh(limit, 100, 0));
        Loop {
            fault,
            first: yard.clone(),
            yard,
            line: Vec::new(),
            last_part: 0,
            parts: 0,
            swallow: false,
            buffer: Vec::new(),
            written: Vec::new(),
        }
    }

    fn run(&mut self) -> io::Result<()> {
        let mut block = vec![0; BLOCK];
        for read in 0.. {
            let length = io::stdin().read(&mut block)?;
            if length == 0 || (read == 1_000 && self.fault == Fault::ThousandReads) {
                break;
            }
            self.first = self.yard.clone();
            self.take_block(&block[..length])?;
            if self.fault != Fault::WrittenLate {
                self.write()?;
            }
        }
        self.end()
    }

    fn take_block(&mut self, block: &[u8]) -> io::Result<()> {
        let mut rest = block.len();
        for part in block.split_inclusive(|byte| *byte == b'\n') {
            rest -= part.len();
            match part.strip_suffix(b"\n") {
                Some(end) => {
                    self.keep(end);
                    self.finish_line(rest == 0)?;
                }
                None => self.keep(part),
            }
        }
        if self.parts == 0 {
            return Ok(());
        }
        match self.fault {
            Fault::AnsweredInHalves => {
                self.answer()?;
                self.forget();
            }
            Fault::TooLongTwice if self.line.len() > LONGEST_LINE => self.answer()?,
            _ => (),
        }
        Ok(())
    }

    fn keep(&mut self, part: &[u8]) {
        if self.fault == Fault::BeginLost && self.parts == 2 {
            self.line.clear();
        }
        self.line.extend_from_slice(part);
        self.last_part = part.len();
        self.parts += 1;
    }

    fn forget(&mut self) {
        self.line.clear();
        self.parts = 0;
    }

    fn finish_line(&mut self, at_the_end: bool) -> io::Result<()> {
        let cut = self.parts > 1;
        let lost = self.fault == Fault::LoneFeedLost && cut && self.last_part == 0;
        if !self.swallow && !lost {
            self.answer()?;
        }
        self.swallow = self.line.len() > LONGEST_LINE
            && match self.fault {
                Fault::NextSwallowed => true,
                Fault::NextSwallowedAfterCut => cut,
                Fault::NextSwallowedAtTheEnd => at_the_end,
                _ => false,
            };
        self.forget();
        Ok(())
    }

    fn too_long(&self) -> bool {
        match self.fault {
            Fault::LengthOfTheLastPart => self.last_part > LONGEST_LINE,
            Fault::CutLineShorter if self.parts > 1 => self.line.len() >= LONGEST_LINE,
            _ => self.line.len() > LONGEST_LINE,
        }
    }

    fn answer(&mut self) -> io::Result<()> {
        let mut line = self.line.clone();
        match self.too_long() {
            true => line.resize(LONGEST_LINE + 1, b'z'),
            false => line.truncate(LONGEST_LINE),
        }
        let mut answer = Vec::new();
        let mut answered = self.yard.answer(&line, &mut answer);
        if self.fault == Fault::StationOfTheBlock {
            answer.clear();
            answered = self.first.clone().answer(&line, &mut answer);
        }
        if answered {
            self.buffer.extend_from_slice(&answer);
            self.buffer.push(b'\n');
        }
        match self.fault {
            _ if self.buffer.len() + LONGEST_ANSWER <= BUFFER => Ok(()),
            Fault::FullBufferDropped => {
                self.buffer.clear();
                Ok(())
            }
            Fault::WrittenLate => Ok(()),
            _ => self.write(),
        }
    }

    fn write(&mut self) -> io::Result<()> {
        io::stdout().write_all(&self.buffer)?;
        io::stdout().flush()?;
        self.written = std::mem::take(&mut self.buffer);
        Ok(())
    }

    fn end(&mut self) -> io::Result<()> {
        if self.parts > 0 && self.fault != Fault::LastLineDropped {
            self.answer()?;
        }
        match self.fault {
            Fault::NoLastFeed => drop(self.buffer.pop()),
            Fault::Talks => eprintln!("done"),
            Fault::WrittenTwice => self.buffer.extend_from_slice(&self.written),
            _ => (),
        }
        self.write()
    }
}

fn main() -> io::Result<()> {
    let name = std::env::args().nth(1).unwrap_or_default();
    let fault = FAULTS.into_iter().find(|fault| format!("{fault:?}") == name);
    Loop::new(fault.unwrap_or(Fault::None)).run()
}
