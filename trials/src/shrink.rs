//! The shortest script that still fails: first lines are taken out, in blocks
//! and then one by one, then numbers are lowered.

use crate::script::Line;
use std::time::{Duration, Instant};

/// Shrinking stops after so many trials or so long, with what it has by then.
const MOST_TRIALS: usize = 4_000;
const LONGEST: Duration = Duration::from_secs(90);

struct Shrinker<F> {
    lines: Vec<Line>,
    fails: F,
    trials: usize,
    begun: Instant,
}

pub fn shrink<F: FnMut(&[Line]) -> bool>(lines: &[Line], fails: F) -> Vec<Line> {
    let mut shrinker = Shrinker { lines: lines.to_vec(), fails, trials: 0, begun: Instant::now() };
    shrinker.remove_blocks();
    // A lower number can make another line superfluous.
    while shrinker.lower_numbers() && !shrinker.tired() {
        shrinker.remove_blocks();
    }
    shrinker.lines
}

impl<F: FnMut(&[Line]) -> bool> Shrinker<F> {
    fn tired(&self) -> bool {
        self.trials >= MOST_TRIALS || self.begun.elapsed() >= LONGEST
    }

    /// Takes the changed script if it still fails.
    fn try_lines(&mut self, lines: Vec<Line>) -> bool {
        if self.tired() {
            return false;
        }
        self.trials += 1;
        let fails = (self.fails)(&lines);
        if fails {
            self.lines = lines;
        }
        fails
    }

    fn remove_blocks(&mut self) {
        let mut size = self.lines.len().div_ceil(2);
        while size > 0 && !self.tired() {
            let removed = self.remove_blocks_of(size);
            if size > 1 {
                size = size.div_ceil(2);
            } else if !removed {
                size = 0;
            }
        }
    }

    /// From the back, because whatever follows the failing line can go.
    fn remove_blocks_of(&mut self, size: usize) -> bool {
        let mut removed = false;
        let mut until = self.lines.len();
        while until > 0 {
            let from = until.saturating_sub(size);
            let mut fewer = self.lines[..from].to_vec();
            fewer.extend_from_slice(&self.lines[until..]);
            removed |= self.try_lines(fewer);
            until = from;
        }
        removed
    }

    fn lower_numbers(&mut self) -> bool {
        let mut lowered = false;
        for place in 0..self.lines.len() {
            let words = self.lines[place].split(|byte| *byte == b' ').count();
            for word in 1..words {
                while self.lower(place, word) {
                    lowered = true;
                }
            }
        }
        lowered
    }

    fn lower(&mut self, place: usize, word: usize) -> bool {
        let line = self.lines[place].clone();
        let words: Vec<&[u8]> = line.split(|byte| *byte == b' ').collect();
        let text = std::str::from_utf8(words[word]).unwrap_or("");
        let Ok(value) = text.parse::<u32>() else { return false };
        let lower = [0, 1, value / 2, value.saturating_sub(1)];
        lower.iter().filter(|lower| **lower < value).any(|lower| {
            let text = lower.to_string();
            let mut words = words.clone();
            words[word] = text.as_bytes();
            let mut lines = self.lines.clone();
            lines[place] = words.join(&b' ');
            self.try_lines(lines)
        })
    }
}
