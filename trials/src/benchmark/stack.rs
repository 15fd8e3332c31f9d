//! The deepest stack: the smallest limit under which the program still answers.

use super::day::{self, Replan};
use super::table::Table;
use super::{pair::Pair, states};
use crate::generate;
use crate::program::{Answering, Program};
use crate::script::{self, Line};
use std::time::Duration;

/// The usual limit of a process, in units of 1,024 bytes.
const LARGEST: u32 = 8_192;
const PATIENCE: Duration = Duration::from_secs(60);

/// Every call with its longest way: days of all sorts, the fullest plans, the most
/// rounds, the longest lines and lines that are no calls.
fn script() -> Result<Vec<Line>, String> {
    let mut lines = day::script(day::classes()[12], 0, Replan::Latest);
    lines.extend(day::script(day::classes()[12], 0, Replan::Lines));
    lines.extend(states::dense(180).0);
    lines.extend(states::queue(180));
    lines.push(b"latest 1".to_vec());
    lines.extend(states::site(4, 180));
    lines.extend([b"latest 4".to_vec(), b"lines 4 1000".to_vec()]);
    for kind in ["spent", "full", "malformed", "edges", "leaning", "feeders"] {
        lines.extend(generate::script_of_kind(kind, 1, 0).ok_or("no such kind")?.lines);
    }
    Ok(lines)
}

/// Whether the program gives these answers under a limit of its stack.
fn answers(words: &[String], limit: u32, input: &[u8], expected: &[Line]) -> bool {
    let mut shell: Vec<String> =
        ["sh", "-c", "ulimit -s \"$0\" && exec \"$@\" 2>/dev/null"].map(String::from).to_vec();
    shell.push(limit.to_string());
    shell.extend_from_slice(words);
    let outcome = Program::of_words(shell, PATIENCE).answers(input);
    outcome.trouble.is_none() && outcome.answers == expected
}

/// Halved until it fails, then the gap between the last two is halved three times.
fn smallest(enough: impl Fn(u32) -> bool) -> Option<(u32, u32)> {
    if !enough(LARGEST) {
        return None;
    }
    let mut good = LARGEST;
    while good > 1 && enough(good / 2) {
        good /= 2;
    }
    let mut bad = good / 2;
    for _ in 0..3 {
        let middle = (good + bad) / 2;
        if middle == bad || middle == good {
            break;
        }
        if enough(middle) {
            good = middle;
        } else {
            bad = middle;
        }
    }
    Some((bad, good))
}

pub fn print(pair: &Pair) -> Result<(), String> {
    let lines = script()?;
    let input = script::join(&lines);
    let expected = script::reference_answers(&lines);
    let mut table = Table::new(&["", "fails with KiB", "answers with KiB"]);
    for (title, words) in ["program", "Rust"].iter().zip(pair.programs()) {
        let found = smallest(|limit| answers(words, limit, &input, &expected));
        let cells = found.map_or(["-".to_string(), format!("more than {LARGEST}")], |found| {
            [found.0.to_string(), found.1.to_string()]
        });
        let [bad, good] = cells;
        table.row(vec![title.to_string(), bad, good]);
    }
    println!(
        "The smallest stack (`ulimit -s`) with which all answers to {} lines are right:\n",
        lines.len()
    );
    table.print();
    Ok(())
}

#[cfg(test)]
mod tests {
    use super::smallest;

    #[test]
    fn the_smallest_limit_lies_between_the_two() {
        for needed in [1, 5, 100, 137, 8_192] {
            let (bad, good) = smallest(|limit| limit >= needed).unwrap();
            assert!(bad < needed && needed <= good, "{needed}: {bad} {good}");
            assert!(good - bad <= 1 + good / 8, "{needed}: {bad} {good}");
        }
        assert_eq!(smallest(|_| false), None);
    }
}
