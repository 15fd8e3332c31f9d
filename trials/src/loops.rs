//! Trials of the loop around the calls: where reads end, where lines end, where
//! answers fill a buffer, and how the input ends. Whatever the way in which the
//! bytes come, the answers are those to the lines.

use crate::compare::{difference, Failure, Summary};
use crate::feed::Way;
use crate::fill::fill;
use crate::generate;
use crate::protocol::LONGEST_LINE;
use crate::random::Random;
use crate::reference::Station;
use crate::role::{self, Role};
use crate::script::{self, Line};

/// Blocks that a program may read are of this length, or this is a multiple of it.
const BLOCK: usize = 1 << 16;

pub struct Trial {
    pub title: String,
    pub input: Vec<u8>,
    pub way: Way,
}

impl Trial {
    /// For a bus, which holds no station before an opening: one in front, and comments up
    /// to the end of its block, so that all else comes to stand where it stood.
    fn opened(mut self) -> Trial {
        let mut input = b"open 1 720 1 100 0\n".to_vec();
        while input.len() < BLOCK {
            let comment = (BLOCK - input.len() - 1).min(1_000);
            input.resize(input.len() + comment, b'#');
            input.push(b'\n');
        }
        // Sizes that are as long as the input all told are not begun anew.
        if let Way::Pieces(sizes) = &mut self.way {
            if sizes.iter().sum::<usize>() >= self.input.len() {
                sizes.insert(0, BLOCK);
            }
        }
        input.append(&mut self.input);
        Trial { input, ..self }
    }
}

/// Cheap ones first.
pub fn trials() -> Vec<Trial> {
    let mut trials = ends();
    trials.extend([cut_once(), cut_twice(), long_cut(), byte_by_byte(), line_by_line()]);
    trials.extend(over_reads());
    trials.extend(over_blocks());
    trials.extend(at_edges());
    trials.extend([short_lines(), long_reports()]);
    trials
}

pub fn compare(of: &role::Trial) -> Result<Summary, Failure> {
    let mut summary = Summary::default();
    for trial in trials() {
        let trial = if of.role == Role::Bus { trial.opened() } else { trial };
        let expected = of.role.answers(&script::split(&trial.input));
        let outcome = of.program.answers_to(&trial.input, &trial.way);
        if let Some(difference) = difference(&expected, &outcome) {
            let title = format!("the loop; 'trials loops \"{}\"' prints the input", trial.title);
            return Err(Failure { title, lines: Vec::new(), what: difference.what });
        }
        summary.scripts += 1;
        summary.answers += expected.len();
    }
    Ok(summary)
}

fn trial(title: impl Into<String>, input: Vec<u8>, way: Way) -> Trial {
    Trial { title: title.into(), input, way }
}

/// Every call of `Calls` has so many bytes with its line feed, a part of a block.
const CALL: usize = 32;

/// Commits and moves in turn, each with an answer of its own: the order is for one
/// minute, and the move reports and drops it.
struct Calls {
    given: usize,
}

impl Calls {
    fn next(&mut self) -> Line {
        let turn = self.given / 2;
        self.given += 1;
        match self.given % 2 {
            1 => format!("commit 1 1 1 9 1 {turn:014}").into_bytes(),
            _ => format!("move {:022} 360", turn + 1).into_bytes(),
        }
    }

    fn push_to(&mut self, input: &mut Vec<u8>) {
        input.extend(self.next());
        input.push(b'\n');
    }
}

/// Appends comments and calls until the input has just this length.
fn fill_to(input: &mut Vec<u8>, length: usize, calls: &mut Calls) {
    assert!(input.len() <= length, "there is no way back to {length}");
    while input.len() + LONGEST_LINE + 100 < length {
        calls.push_to(input);
        input.extend([b'#'; 4_000]);
        input.push(b'\n');
    }
    while input.len() < length {
        let comment = (length - input.len() - 1).min(LONGEST_LINE);
        input.resize(input.len() + comment, b'#');
        input.push(b'\n');
    }
}

/// A call of this many bytes: a word, zeros and a number.
fn long_call(length: usize) -> Line {
    let mut line = b"enquire ".to_vec();
    line.resize(length - 1, b'0');
    line.push(b'1');
    line
}

const ENDS: [(&str, &str); 8] = [
    ("nothing", ""),
    ("an empty line", "\n"),
    ("two empty lines", "\n\n"),
    ("a call", "latest 1"),
    ("a call with a line feed", "latest 1\n"),
    ("a comment", "#"),
    ("two calls", "commit 1 1 5 5 1 0\nenquire 1"),
    ("an error and a comment", "x\n#x"),
];

/// How the input ends: with a line feed or not, at a block's end or near it, after
/// a line that is too long, or before it has begun.
fn ends() -> Vec<Trial> {
    let mut inputs: Vec<(String, Vec<u8>)> = Vec::new();
    for (name, text) in ENDS {
        inputs.push((name.to_string(), text.as_bytes().to_vec()));
    }
    for length in [LONGEST_LINE - 1, LONGEST_LINE, LONGEST_LINE + 1, 2 * BLOCK + 1] {
        let input = [b"commit 1 1 5 5 1 0\n".to_vec(), long_call(length)].concat();
        inputs.push((format!("a last line of {length} bytes"), input));
    }
    for length in [BLOCK - 1, BLOCK, BLOCK + 1, 2 * BLOCK] {
        let mut calls = Calls { given: 0 };
        let mut input = Vec::new();
        fill_to(&mut input, length - (CALL - 1), &mut calls);
        input.extend(calls.next());
        inputs.push((format!("{length} bytes"), input.clone()));
        input.pop();
        input.push(b'\n');
        inputs.push((format!("{length} bytes with a line feed"), input));
    }
    let each = |(title, input): (String, Vec<u8>)| {
        let ways = [("a pipe", Way::Pipe), ("a file", Way::File)];
        ways.map(|(name, way)| trial(format!("end of {title}, {name}"), input.clone(), way))
    };
    inputs.into_iter().flat_map(each).collect()
}

const CUT: [&str; 9] = [
    "commit 1 1 10 60 1 ?",
    "preview 1 2 10 60 1",
    "commit 1 1 10 60 1 0",
    "enquire 2",
    "# no answer",
    "",
    "x",
    "move 3 360",
    "offer 1 21 0",
];

/// Each line cut at each place, its begin and its end too.
fn cut_once() -> Trial {
    let (mut lines, mut cuts) = (Vec::new(), Vec::new());
    for line in CUT {
        // A line feed follows, and a start has up to three digits.
        for cut in 0..line.len() + 4 {
            lines.push(line.as_bytes().to_vec());
            cuts.push(cut);
        }
    }
    let (mut input, mut sizes) = (Vec::new(), Vec::new());
    for (line, cut) in fill(Station::fresh(1, 100, 0), &lines).into_iter().zip(cuts) {
        let length = line.len() + 1;
        let first = cut.min(length);
        input.extend(line);
        input.push(b'\n');
        sizes.extend([first, length - first]);
    }
    sizes.retain(|size| *size > 0);
    trial("lines cut once", input, Way::Pieces(sizes))
}

/// Each line cut at any two places.
fn cut_twice() -> Trial {
    let (mut input, mut sizes) = (Vec::new(), Vec::new());
    let mut calls = Calls { given: 0 };
    for first in 1..CALL {
        for second in first + 1..CALL {
            calls.push_to(&mut input);
            sizes.extend([first, second - first, CALL - second]);
        }
    }
    trial("lines cut twice", input, Way::Pieces(sizes))
}

/// The longest lines and longer ones, cut where they begin, where they get too long
/// and where they end, with calls in the same read after them.
fn long_cut() -> Trial {
    let (mut input, mut sizes) = (Vec::new(), Vec::new());
    let mut calls = Calls { given: 0 };
    for length in [LONGEST_LINE, LONGEST_LINE + 1, LONGEST_LINE + 2, 2 * LONGEST_LINE + 3] {
        let middle = [LONGEST_LINE - 1, LONGEST_LINE, LONGEST_LINE + 1];
        for cut in [1, middle[0], middle[1], middle[2], length - 1, length, length + 1] {
            let begun = input.len();
            input.extend(long_call(length));
            input.push(b'\n');
            calls.push_to(&mut input);
            calls.push_to(&mut input);
            sizes.extend([cut, input.len() - begun - cut]);
        }
    }
    trial("long lines cut once", input, Way::Pieces(sizes))
}

/// Scripts until there are so many bytes. The first one opens no station.
fn mixed(seed: u64, length: usize) -> Vec<u8> {
    let mut lines = generate::script_of_kind("unopened", seed, 0).unwrap_or_default().lines;
    for number in 0.. {
        if script::join(&lines).len() >= length {
            break;
        }
        lines.extend(generate::script_of_kind("mixed", seed, number).unwrap_or_default().lines);
    }
    script::join(&lines)
}

fn byte_by_byte() -> Trial {
    let mut input = mixed(1, 3_000);
    input.extend(long_call(2_000));
    trial("byte by byte", input, Way::Pieces(vec![1]))
}

/// Some thousands of reads, and each answer before the next call.
fn line_by_line() -> Trial {
    trial("line by line", mixed(2, 35_000), Way::Dialogue)
}

/// The longest lines and longer ones, each over several reads.
fn over_reads() -> Vec<Trial> {
    let mut calls = Calls { given: 0 };
    let mut input = Vec::new();
    for length in [LONGEST_LINE - 1, LONGEST_LINE, LONGEST_LINE + 1, LONGEST_LINE + 2, 12_300] {
        for line in [long_call(length), vec![b'#'; length]] {
            input.extend(line);
            input.push(b'\n');
            calls.push_to(&mut input);
            calls.push_to(&mut input);
        }
    }
    let sizes = [700, 1_365, 1_366, 2_047, 2_048, 2_049, 4_095, 4_096, 4_097, 4_098];
    let title = |size| format!("long lines in pieces of {size}");
    sizes.map(|size| trial(title(size), input.clone(), Way::Pieces(vec![size]))).into()
}

/// Calls of the same length, so that every block's end cuts one at the same place;
/// all places in turn.
fn over_blocks() -> Vec<Trial> {
    let of_shift = |shift: usize| {
        let mut calls = Calls { given: 0 };
        let mut input = Vec::new();
        fill_to(&mut input, shift, &mut calls);
        while input.len() < 3 * BLOCK + BLOCK / 2 {
            calls.push_to(&mut input);
        }
        trial(format!("blocks that end {shift} bytes on"), input, Way::File)
    };
    (0..CALL).map(of_shift).collect()
}

/// Lines of the longest length, just past it and over several blocks, with their
/// begin, their 4,097th byte and their line feed near a block's end.
fn at_edges() -> Vec<Trial> {
    let lengths = [LONGEST_LINE, LONGEST_LINE + 1, LONGEST_LINE + 2, BLOCK, 2 * BLOCK + 7];
    let of_length = |length: usize| {
        let mut calls = Calls { given: 0 };
        let mut input = Vec::new();
        for place in [0, LONGEST_LINE - 1, LONGEST_LINE, LONGEST_LINE + 1, length] {
            for near in [BLOCK - 1, BLOCK, BLOCK + 1] {
                let edge = (input.len() + place).div_ceil(BLOCK) * BLOCK;
                fill_to(&mut input, edge + near - place, &mut calls);
                input.extend(long_call(length));
                input.push(b'\n');
                calls.push_to(&mut input);
                calls.push_to(&mut input);
            }
        }
        trial(format!("lines of {length} bytes at a block's end"), input, Way::File)
    };
    lengths.map(of_length).into()
}

/// Two to six bytes with answers of about twenty: more than half a megabyte of
/// answers to a block.
fn short_lines() -> Trial {
    let mut random = Random::new(5);
    let mut input = Vec::new();
    while input.len() < 3 * BLOCK {
        let line = random.pick(&["x", "x", "x", "y", "open", "open x", "lines", "#", "lines 0 0"]);
        input.extend(line.as_bytes());
        input.push(b'\n');
    }
    trial("short lines", input, Way::File)
}

/// Answers of a thousand bytes and more, among short ones.
fn long_reports() -> Trial {
    let mut input = b"open 1 720 60 100 0\n".to_vec();
    for turn in 1.. {
        if input.len() > 4 * BLOCK {
            break;
        }
        // Sixty in a minute, for three minutes.
        for place in 0..180 {
            let start = 3 * (turn - 1) + place / 60;
            input.extend(format!("commit 1 1 1 9 1 {start}\n").into_bytes());
        }
        input.extend(format!("move {} 360\n", 3 * turn).into_bytes());
    }
    trial("long reports", input, Way::File)
}

#[cfg(test)]
mod tests {
    use super::*;

    #[test]
    fn titles_are_names() {
        let titles: std::collections::HashSet<String> =
            trials().into_iter().map(|trial| trial.title).collect();
        assert_eq!(titles.len(), trials().len());
    }

    /// What each trial is meant for is in it.
    #[test]
    fn lines_at_a_blocks_end() {
        for (shift, trial) in over_blocks().iter().enumerate() {
            let cut = &trial.input[BLOCK - (CALL - shift) % CALL..];
            assert!(cut.starts_with(b"commit 1") || cut.starts_with(b"move 00"), "{shift}");
        }
        for trial in at_edges() {
            let feeds = |place: usize| trial.input[place] == b'\n';
            let edges = (BLOCK..trial.input.len()).step_by(BLOCK);
            let around = |at: usize| [at - 1, at, at + 1];
            let near: Vec<bool> = edges.flat_map(around).map(feeds).collect();
            assert!(near.iter().any(|feed| *feed), "{}", trial.title);
        }
    }

    #[test]
    fn more_than_a_thousand_reads() {
        assert!(byte_by_byte().input.len() > 4_000);
        assert!(script::split(&line_by_line().input).len() > 2_000);
    }

    #[test]
    fn more_answers_than_a_buffer_holds() {
        for trial in [short_lines(), long_reports()] {
            let block = script::split(&trial.input[..BLOCK]);
            let answers = script::join(&script::reference_answers(&block));
            assert!(answers.len() > 4 * BLOCK / 3, "{}: {}", trial.title, answers.len());
        }
    }
}
