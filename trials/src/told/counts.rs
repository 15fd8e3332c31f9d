//! The counts of the lines that charges give, minute by minute.

use crate::yard::MOST_FEEDERS;

/// One charge as it is counted: "a charge of rate 2 counts as two" (N4), "in minutes s to
/// s + p + r − 1" (N7).
#[derive(Clone, Copy, Debug, PartialEq, Eq)]
pub struct Load {
    /// Its place among the feeders, from 0.
    pub feeder: usize,
    /// From 0 too.
    pub line: usize,
    pub start: u64,
    /// s + p + r
    pub clear: u64,
    pub rate: u32,
}

/// The counts of the three lines of each feeder; those of feeders that there are not are 0.
pub type Counts = [[i64; 3]; MOST_FEEDERS];

/// The counts from each minute on in which they change, in order. They change only where a
/// charge starts or its tail ends, so these minutes stand for all.
pub fn counts(loads: &[Load]) -> Vec<(u64, Counts)> {
    let mut changes = Vec::new();
    for Load { feeder, line, start, clear, rate } in loads {
        changes.push((*start, (*feeder, *line), i64::from(*rate)));
        changes.push((*clear, (*feeder, *line), -i64::from(*rate)));
    }
    changes.sort_unstable();
    let mut counts = Counts::default();
    let mut steps = Vec::new();
    for (place, (minute, (feeder, line), change)) in changes.iter().enumerate() {
        counts[*feeder][*line] += change;
        if changes.get(place + 1).is_none_or(|next| next.0 != *minute) {
            steps.push((*minute, counts));
        }
    }
    steps
}

/// The largest difference between two lines.
pub fn spread(counts: &[i64; 3]) -> i64 {
    let largest = counts.iter().max().copied().unwrap_or(0);
    let smallest = counts.iter().min().copied().unwrap_or(0);
    largest - smallest
}
