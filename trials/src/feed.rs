//! The ways in which input comes to a program. Reads end where a way says, so that
//! the loop around the calls is tried at every edge.

use crate::listen::Listener;
use crate::protocol::read_call;
use std::fs;
use std::io::{self, Write};
use std::process::ChildStdin;
use std::thread;
use std::time::{Duration, Instant};

#[derive(Clone, Debug, PartialEq, Eq)]
pub enum Way {
    /// Through a pipe, as fast as it goes.
    Pipe,
    /// From a file: each read gets a full block as long as there is one.
    File,
    /// Through a pipe in pieces of these sizes, over and over; each is read before
    /// the next is sent.
    Pieces(Vec<usize>),
    /// A line at a time; the next is sent when this one is answered.
    Dialogue,
}

/// Sends all of the input; what is wrong if an answer is not there in time. A
/// program that ends early closes its input, and its answers will tell.
pub fn feed(
    mut stdin: ChildStdin,
    input: &[u8],
    way: &Way,
    process: u32,
    stdout: &Listener,
    patience: Duration,
) -> Result<(), String> {
    match way {
        Way::Pieces(sizes) => drop(send_pieces(&mut stdin, input, sizes, process)),
        Way::Dialogue => return converse(&mut stdin, input, stdout, patience),
        Way::Pipe | Way::File => drop(stdin.write_all(input)),
    }
    Ok(())
}

fn send_pieces(
    stdin: &mut ChildStdin,
    input: &[u8],
    sizes: &[usize],
    process: u32,
) -> io::Result<()> {
    let mut rest = input;
    for size in sizes.iter().cycle() {
        if rest.is_empty() {
            break;
        }
        let (piece, more) = rest.split_at(*size.min(&rest.len()));
        stdin.write_all(piece)?;
        stdin.flush()?;
        wait_until_read(process);
        rest = more;
    }
    Ok(())
}

/// A piece wakes the program, which sleeps again once it has read it and wants
/// more. Where the system doesn't say who sleeps, a pause has to do.
fn wait_until_read(process: u32) {
    const LONGEST: Duration = Duration::from_secs(5);
    const PAUSE: Duration = Duration::from_millis(1);
    let path = format!("/proc/{process}/stat");
    let begun = Instant::now();
    while begun.elapsed() < LONGEST {
        let Ok(text) = fs::read_to_string(&path) else { return thread::sleep(PAUSE) };
        // The state follows the name, which stands in brackets.
        let state = text.rsplit_once(") ").map_or("", |(_, state)| state);
        if !state.starts_with(['R', 'D']) {
            return;
        }
        thread::yield_now();
    }
}

fn converse(
    stdin: &mut ChildStdin,
    input: &[u8],
    stdout: &Listener,
    patience: Duration,
) -> Result<(), String> {
    let mut answers = 0;
    for (place, line) in input.split_inclusive(|byte| *byte == b'\n').enumerate() {
        let sent = stdin.write_all(line).and_then(|()| stdin.flush());
        if sent.is_err() {
            return Ok(());
        }
        let Some(call) = line.strip_suffix(b"\n") else { return Ok(()) };
        answers += usize::from(!matches!(read_call(call), Ok(None)));
        if !stdout.wait(patience, |output| output.ended || output.lines >= answers) {
            let place = place + 1;
            return Err(format!("line {place} is not answered while no more comes"));
        }
    }
    Ok(())
}
