//! Commits that leave their start open: a `?` in the place of the start stands for the
//! one that a preview would show at that moment. A script is written so where the
//! start is not its subject, and filled in before it is run.

use crate::interpret::Interpreter;
use crate::protocol::{read_call, write_call, Call};
use crate::reference::Station;
use crate::script::Line;
use crate::yard::{Order, Yard};

/// The line of a commit that leaves its start open.
pub fn open_commit(order: Order) -> Line {
    leave_open(write_call(&Call::Commit { order, shown: 0 }).as_bytes())
}

/// Writes the starts that the yard would show.
pub fn fill<Y: Yard>(yard: Y, lines: &[Line]) -> Vec<Line> {
    let mut interpreter = Interpreter::new(yard);
    let mut filled = Vec::new();
    for line in lines {
        let line = match open_order(line) {
            Some((head, order)) => {
                // A refused order has no start; whatever stands there is not looked at.
                let start = interpreter.yard_mut().preview(order).unwrap_or(0);
                [head, format!(" {start}").as_bytes()].concat()
            }
            None => line.clone(),
        };
        interpreter.answer(&line, &mut Vec::new());
        filled.push(line);
    }
    filled
}

/// Leaves the start open in every commit that the reference takes: the script can then
/// lose lines, or be filled in by another yard, and its orders are still placed.
pub fn unfill(lines: &[Line]) -> Vec<Line> {
    let mut interpreter = Interpreter::new(Station::fresh(1, 100, 0));
    let mut open = Vec::new();
    for line in lines {
        let mut answer = Vec::new();
        interpreter.answer(line, &mut answer);
        open.push(if answer.starts_with(b"ticket ") { leave_open(line) } else { line.clone() });
    }
    open
}

/// Puts the mark in the place of the last word.
fn leave_open(commit: &[u8]) -> Line {
    let mut words: Vec<&[u8]> = commit.split(|byte| *byte == b' ').collect();
    words.pop();
    words.push(b"?");
    words.join(&b' ')
}

/// A commit's line up to its start, and its order, where the start is left open.
fn open_order(line: &[u8]) -> Option<(&[u8], Order)> {
    let head = line.strip_suffix(b" ?")?;
    match read_call(&[head, b" 0"].concat()) {
        Ok(Some(Call::Commit { order, .. })) => Some((head, order)),
        _ => None,
    }
}

#[cfg(test)]
mod tests {
    use super::*;
    use crate::script::{join, show, split};

    const OPEN: &str =
        "open 1 720 1 100 0\ncommit 1 1 5 9 1 ?\ncommit 1 1 5 9 1 ?\ncommit 1 1 5 9 1 3\nlatest ?\n\
                        commit 1 4 5 9 1 ?\ncommit 1 1 x 9 1 ?\ncommit 1 1 5 9 1 7?\n";
    const FILLED: &str =
        "open 1 720 1 100 0\ncommit 1 1 5 9 1 0\ncommit 1 1 5 9 1 5\ncommit 1 1 5 9 1 3\nlatest ?\n\
                          commit 1 4 5 9 1 0\ncommit 1 1 x 9 1 ?\ncommit 1 1 5 9 1 7?\n";

    #[test]
    fn open_starts_are_those_that_would_be_shown() {
        let filled = fill(Station::fresh(1, 100, 0), &split(OPEN.as_bytes()));
        assert_eq!(show(&join(&filled)), FILLED);
    }

    #[test]
    fn commits_that_are_taken_are_left_open() {
        let open = unfill(&split(FILLED.as_bytes()));
        assert_eq!(show(&join(&open)), OPEN.replace("commit 1 4 5 9 1 ?", "commit 1 4 5 9 1 0"));
    }

    #[test]
    fn an_order_becomes_an_open_commit() {
        let order = Order { feeder: 3, line: 1, time: 10, due: 60, rate: 2 };
        assert_eq!(show(&open_commit(order)), "commit 3 1 10 60 2 ?");
    }
}
