//! Carries a station through the lines of a script and writes the answers.
//! "Before the first `open` the station is that of 1, 100" is the yard's part:
//! every yard here begins with that station.

use crate::protocol::{self, Call, LONGEST_LINE, MOST_PLACES};
use crate::yard::{Refusal, Yard};
use std::io::{self, Read, Write};

/// What every place of a lent list holds before a clock move.
const UNTOUCHED: u32 = u32::MAX;
/// And before a board: nothing that a board would have to write, so that a place that was
/// left out shows.
const BLANK: u32 = u32::MAX - 1;

#[derive(Clone)]
pub struct Interpreter<Y> {
    yard: Y,
    /// Kept between calls so that no call has to ask for memory.
    list: Vec<u32>,
}

impl<Y: Yard> Interpreter<Y> {
    pub fn new(yard: Y) -> Self {
        Interpreter { yard, list: Vec::with_capacity(MOST_PLACES as usize) }
    }

    pub fn yard(&self) -> &Y {
        &self.yard
    }

    pub fn yard_mut(&mut self) -> &mut Y {
        &mut self.yard
    }

    /// Appends the answer to `text`, without a line feed. Says whether there
    /// was one: lines passed over have none.
    pub fn answer(&mut self, text: &[u8], out: &mut Vec<u8>) -> bool {
        match protocol::read_call(text) {
            Ok(None) => return false,
            Ok(Some(call)) => self.carry_out(&call, out),
            Err(fault) => protocol::write_fault(out, fault),
        }
        true
    }

    fn carry_out(&mut self, call: &Call, out: &mut Vec<u8>) {
        if let Err(refusal) = self.try_call(call, out) {
            protocol::write_refusal(out, refusal);
        }
    }

    /// Appends the answer to a call, or nothing beside a refusal.
    pub fn try_call(&mut self, call: &Call, out: &mut Vec<u8>) -> Result<(), Refusal> {
        let yard = &mut self.yard;
        match call {
            Call::Open { opening } => protocol::write_opened(out, &yard.open(opening)?),
            Call::Preview { order } => protocol::write_previewed(out, yard.preview(*order)?),
            Call::Commit { order, shown } => {
                protocol::write_committed(out, yard.commit(*order, *shown)?);
            }
            Call::Move { target, places } => {
                lend(&mut self.list, *places, UNTOUCHED);
                let moved = yard.move_clock(*target, &mut self.list)?;
                protocol::write_moved(out, moved, &self.list);
            }
            Call::Offer { feeder, starts } => {
                protocol::write_planned(out, yard.offer(*feeder, starts)?);
            }
            Call::Latest { feeder } => {
                protocol::write_planned(out, yard.replan_by_latest_start(*feeder)?);
            }
            Call::Lines { feeder, allowance } => {
                protocol::write_planned(out, yard.replan_by_lines(*feeder, *allowance)?);
            }
            Call::Enquire { ticket } => protocol::write_found(out, yard.enquire(*ticket)?),
            Call::Board { places, tickets } => {
                lend(&mut self.list, *places, BLANK);
                let looked = yard.board(tickets, &mut self.list)?;
                protocol::write_board(out, looked, &self.list[..tickets.len()]);
            }
            Call::Withdraw { ticket } => {
                yard.withdraw(*ticket)?;
                protocol::write_withdrawn(out);
            }
        }
        Ok(())
    }
}

/// The yard as a program.
pub fn serve<Y: Yard>(yard: Y, input: impl Read, output: impl Write) -> io::Result<()> {
    let mut interpreter = Interpreter::new(yard);
    serve_lines(|line, out| interpreter.answer(line, out), input, output)
}

/// Anything that answers lines as a program: it appends the answer to a line and says
/// whether there was one. Answers go out after each piece of input read, so a caller who
/// waits for an answer before the next call gets it.
pub fn serve_lines(
    mut answer: impl FnMut(&[u8], &mut Vec<u8>) -> bool,
    mut input: impl Read,
    mut output: impl Write,
) -> io::Result<()> {
    let mut piece = vec![0; 1 << 16];
    let mut line = Vec::with_capacity(LONGEST_LINE + 1);
    let mut out = Vec::with_capacity(1 << 17);
    loop {
        let read = input.read(&mut piece)?;
        if read == 0 {
            break;
        }
        take_lines(&mut answer, &piece[..read], &mut line, &mut out);
        output.write_all(&out)?;
        output.flush()?;
        out.clear();
    }
    // A last line without a line feed counts.
    if !line.is_empty() {
        answer_line(&mut answer, &line, &mut out);
    }
    output.write_all(&out)?;
    output.flush()
}

/// Splits a piece of input at its line feeds; `line` keeps what is unfinished.
fn take_lines(
    answer: &mut impl FnMut(&[u8], &mut Vec<u8>) -> bool,
    piece: &[u8],
    line: &mut Vec<u8>,
    out: &mut Vec<u8>,
) {
    let mut rest = piece;
    while let Some(feed) = rest.iter().position(|byte| *byte == b'\n') {
        if line.is_empty() && feed <= LONGEST_LINE {
            answer_line(answer, &rest[..feed], out);
        } else {
            keep(line, &rest[..feed]);
            answer_line(answer, line, out);
            line.clear();
        }
        rest = &rest[feed + 1..];
    }
    keep(line, rest);
}

/// One byte more than the longest line is enough to know that it is too long.
fn keep(line: &mut Vec<u8>, more: &[u8]) {
    let room = LONGEST_LINE + 1 - line.len();
    line.extend_from_slice(&more[..more.len().min(room)]);
}

fn answer_line(
    answer: &mut impl FnMut(&[u8], &mut Vec<u8>) -> bool,
    line: &[u8],
    out: &mut Vec<u8>,
) {
    if answer(line, out) {
        out.push(b'\n');
    }
}

/// Makes the lent list as long as asked for, each place with the same number.
fn lend(list: &mut Vec<u32>, places: u32, number: u32) {
    list.clear();
    list.resize(places.min(MOST_PLACES) as usize, number);
}
