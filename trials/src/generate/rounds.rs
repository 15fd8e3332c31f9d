//! Replans by lines with many rounds, and allowances around the number needed:
//! "Else, if the rounds made equal the allowance: cause 2."

use super::author::Author;
use super::due;
use crate::yard::Yard;

fn allowances(author: &mut Author) {
    let mut station = author.station().clone();
    let needed = station.replan_by_lines(author.feeder, 1_000).map_or(1, |plan| plan.rounds);
    for allowance in [1, needed.saturating_sub(1).max(1), needed, 1_000] {
        // A taken plan would leave nothing to compare for the next allowance,
        // so the one that is likely to be taken comes last or not at all.
        if allowance < needed || author.random.percent(50) {
            author.lines(allowance);
        }
    }
}

pub fn write(author: &mut Author) {
    let limit = author.random.between(8, 60);
    let bound = author.random.between(1, 3).min(limit);
    due::open_with_bound(author, limit, bound);
    let longest = author.random.pick(&[3, 8, 20]);
    // Line 1 gets most, so its cap has to come down step by step.
    let crowd = author.random.between(40, 95);
    for _ in 0..author.random.between(20, 120) {
        let crowded = author.random.percent(crowd);
        let line = if crowded { 1 } else { author.random.between(1, 3) as u32 };
        due::order(author, line, longest);
        if author.random.percent(3) {
            author.move_on(1);
        }
    }
    allowances(author);
    let minutes = author.random.between(1, longest);
    author.move_on(minutes);
    author.latest();
    allowances(author);
}
