//! A script: lines of bytes, since malformed ones need not be text.

use crate::interpret::Interpreter;
use crate::protocol;
use crate::reference::Station;
use crate::yard::Yard;

/// One line of a script or of the answers, without its line feed.
pub type Line = Vec<u8>;

/// Lines with the answers that the reference gives to them.
#[derive(Clone, Debug, Default)]
pub struct Script {
    pub kind: &'static str,
    /// Among the scripts of its seed.
    pub number: u64,
    pub lines: Vec<Line>,
    pub answers: Vec<Line>,
}

/// The answers of a yard to a script.
pub fn answers_of<Y: Yard>(yard: Y, lines: &[Line]) -> Vec<Line> {
    let mut interpreter = Interpreter::new(yard);
    let mut answers = Vec::new();
    for line in lines {
        let mut answer = Vec::new();
        if interpreter.answer(line, &mut answer) {
            answers.push(answer);
        }
    }
    answers
}

pub fn reference_answers(lines: &[Line]) -> Vec<Line> {
    answers_of(Station::fresh(1, 100, 0), lines)
}

/// The lines that get an answer, so that answers can be paired with them.
pub fn answered(lines: &[Line]) -> impl Iterator<Item = &Line> {
    lines.iter().filter(|line| !matches!(protocol::read_call(line), Ok(None)))
}

/// Splits bytes at line feeds; a last line without one counts.
pub fn split(bytes: &[u8]) -> Vec<Line> {
    let mut lines: Vec<Line> = bytes.split(|byte| *byte == b'\n').map(<[u8]>::to_vec).collect();
    if lines.last().is_some_and(Vec::is_empty) {
        lines.pop();
    }
    lines
}

/// Joins lines with a line feed after each.
pub fn join(lines: &[Line]) -> Vec<u8> {
    let mut bytes = Vec::new();
    for line in lines {
        bytes.extend_from_slice(line);
        bytes.push(b'\n');
    }
    bytes
}

/// The lines so many times over.
pub fn repeated(lines: &[Line], turns: usize) -> Vec<Line> {
    (0..turns).flat_map(|_| lines.to_vec()).collect()
}

pub fn show(line: &[u8]) -> String {
    String::from_utf8_lossy(line).into_owned()
}
