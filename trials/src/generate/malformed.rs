//! Lines that are no calls, between calls that are: an error "changes nothing,
//! and the program goes on".

use super::author::Author;
use super::{due, mixed};
use crate::protocol::LONGEST_LINE;

const SAMPLES: [&str; 92] = [
    "",
    "#",
    "# commit 1 1 1 1 1 0",
    " ",
    " latest 1",
    "latest",
    "latest ",
    "latest 1 ",
    "latest 1 0",
    "latest 1\r",
    "latest x",
    "latest 4294967296",
    "latest 0001",
    "\r",
    "latestt 1",
    "Latest 1",
    "LATEST 1",
    "late 1",
    "\tlatest 1",
    "open",
    "open 1",
    "open 1 720",
    "open 1 720 5",
    "open 1 720 5 ",
    "open 1 720  5 20",
    "open 1 720 5 20",
    "open 1 720 5 20 ",
    "open 1 720 5 20 0 ",
    "open 1 720 5 20 0 0",
    "open 1 720 5 20 0 0 0",
    "open 1 720 5 20 0 0 x",
    "open 1 720 5 20 0 5 20 0 7 20",
    "open 4 720 5 20 0 5 20 0 5 20 0 5 20 0 5",
    "open 4 720 5 20 0 5 20 0 5 20 0 5 20 0 x",
    "open 4 720 5 20 0 5 20 0 5 20 0 5 20 0 ",
    "open 4 720 5 20 0 5 20 0 5 20 0 5 20 4294967296",
    "open one 720 5 20 0",
    "open 1 -1 5 20 0",
    "open 1 720 five 20 0",
    "open 1 720 5 20 -1",
    "open 1 720 5 20 4294967296",
    "open 1 720 5 20 0\r",
    "open 1 4294967296 5 20 0",
    "open 4294967296 720 5 20 0",
    "open 99999999999999999999999999 720 5 20 0",
    // The call that preview and commit have replaced.
    "order",
    "order 1 1 10 600",
    "order 1 1 10 600 0",
    "preview",
    "preview 1 1 10 600",
    "preview 1 1 10 600 1 0",
    "preview 1 1 10 600 x",
    "preview 01 001 0000000000000002 600 01",
    "commit",
    "commit 1 1 10 600 1",
    "commit 1 1 10 600 1 -1",
    "commit 1 1 10 600 1 +0",
    "commit 1 1 10 600 1 ?",
    "commit 1 1 1.0 60 1 0",
    "commit 1 1\t10 60 1 0",
    "commit 4294967296 x 10 60 1 0",
    "commit 1 1 10 60 4294967296 x",
    "commit 1 1 10 60 1 4294967296",
    "commit 1 1 10 60 1 0 0",
    "move 1",
    "move 1 360 1",
    "move 0x1 360",
    "offer",
    "offer ",
    "offer  1",
    "offer 1 ",
    "offer x 1",
    "lines",
    "lines 1",
    "lines 1 1 1",
    "enquire",
    "enquire 1 x",
    "board",
    "board ",
    "board  1",
    "board x 1",
    "board 1 x",
    "board 4294967296 1",
    "board 2 1 4294967296",
    "board 0000001 01",
    "withdraw",
    "withdraw ",
    "withdraw x",
    "withdraw 1 1",
    "withdraw 4294967296",
    "withdrawn 1",
    "withdraw 0001",
];

fn broken(author: &mut Author) -> Vec<u8> {
    let mut line = match author.random.below(3) {
        0 => b"commit 1 1 10 600 1 0".to_vec(),
        1 => b"move 3 360".to_vec(),
        _ => b"offer 1 1 2 3".to_vec(),
    };
    for _ in 0..author.random.between(1, 2) {
        let place = author.random.below(line.len() as u64) as usize;
        match author.random.below(4) {
            0 => line.insert(place, b' '),
            1 => line[place] = other_byte(author),
            2 => line.insert(place, other_byte(author)),
            _ => {
                line.remove(place);
            }
        }
    }
    line
}

/// Any byte but the line feed, which would make two lines of one.
fn other_byte(author: &mut Author) -> u8 {
    match author.random.below(256) as u8 {
        b'\n' => b'\r',
        byte => byte,
    }
}

/// Lines of just the longest length and past it.
fn long(author: &mut Author) -> Vec<u8> {
    let past = if author.random.percent(3) { 70_000 } else { author.random.pick(&[0, 0, 1, 900]) };
    let length = LONGEST_LINE + past;
    let head: &[u8] = author.random.pick(&[&b"enquire 0"[..], b"commit ", b"#", b"x", b"lines 1 "]);
    let fill = if head == b"x" { b'y' } else { b'0' };
    let mut line = head.to_vec();
    line.resize(length - 1, fill);
    line.push(b'1');
    line
}

fn bad_line(author: &mut Author) -> Vec<u8> {
    match author.random.below(9) {
        0..=5 => author.random.pick(&SAMPLES).as_bytes().to_vec(),
        6..=7 => broken(author),
        _ => long(author),
    }
}

pub fn write(author: &mut Author) {
    let limit = author.random.between(1, 4);
    due::open(author, limit);
    for _ in 0..author.random.between(5, 25) {
        let line = bad_line(author);
        author.line(line);
        if author.random.percent(60) {
            mixed::one_call(author, 10);
        }
    }
}
