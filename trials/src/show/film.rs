//! All moments of an evening. What changes from call to call is a piece of SVG in a slot of its
//! own, so that a page steps through calls by putting other pieces into the slots, and knows
//! nothing else. Each different piece is there once.

use super::bar::{self, Face};
use super::charge::Charge;
use super::entry::{Entry, Sort};
use super::evening::Evening;
use super::lanes::{self, Lane};
use super::layout::{Block, Layout, Parts, Row};
use super::numbers;
use crate::protocol::Call;
use std::collections::HashMap;
use std::rc::Rc;

#[derive(Default)]
pub struct Film {
    pieces: Vec<String>,
    numbers: HashMap<String, usize>,
    /// For each slot, block by block, the steps at which it gets another piece, with the piece. A
    /// step is a call of the script.
    slots: Vec<Vec<(usize, usize)>>,
    /// The first slot of each block.
    blocks: Vec<usize>,
    /// The steps that are plans.
    plans: Vec<usize>,
}

/// The steps at which a slot gets another piece, with the piece.
type Changes = Vec<(usize, String)>;

impl Film {
    pub fn of(evening: &Evening, layout: &Layout) -> Film {
        let shown: Vec<(usize, &Entry)> = evening.shown().collect();
        let moments: Vec<usize> = shown.iter().map(|(moment, _)| *moment).collect();
        let plans = (0..shown.len()).filter(|step| shown[*step].1.sort.is_plan()).collect();
        let mut film = Film { plans, ..Film::default() };
        let mut lanes = lanes(evening, layout).into_iter();
        for block in &layout.blocks {
            film.blocks.push(film.slots.len());
            film.slot(clock(evening, layout, &moments));
            match &block.parts {
                Parts::Lanes(bands) => {
                    let parts = lanes.by_ref().take(bands.len()).flatten();
                    parts.for_each(|part| film.slot(part));
                }
                Parts::Charges(rows) => {
                    rows.iter().for_each(|row| film.slot(bar(evening, &moments, layout, row)));
                }
            }
        }
        film
    }

    fn slot(&mut self, changes: Changes) {
        let mut slot: Vec<(usize, usize)> = Vec::new();
        for (step, piece) in changes {
            let next = self.pieces.len();
            let number = *self.numbers.entry(piece).or_insert_with_key(|piece| {
                self.pieces.push(piece.clone());
                next
            });
            if slot.last().is_none_or(|(_, last)| *last != number) {
                slot.push((step, number));
            }
        }
        self.slots.push(slot);
    }

    /// The pieces of a block at the end of the evening, which stand there before any script runs,
    /// and on paper.
    pub fn at_the_end(&self, block: usize) -> String {
        let first = self.blocks[block];
        let behind = self.blocks.get(block + 1).copied().unwrap_or(self.slots.len());
        let piece = |slot: &Vec<(usize, usize)>| {
            let piece = slot.last().map_or("", |(_, piece)| self.pieces[*piece].as_str());
            format!("<g class=\"slot\">{piece}</g>")
        };
        self.slots[first..behind].iter().map(piece).collect()
    }

    /// As JSON that may stand inside of a script element.
    pub fn written(&self) -> String {
        let pieces: Vec<String> = self.pieces.iter().map(|piece| quoted(piece)).collect();
        let slot = |slot: &Vec<(usize, usize)>| {
            let changes: Vec<String> =
                slot.iter().map(|(step, piece)| format!("{step},{piece}")).collect();
            format!("[{}]", changes.join(","))
        };
        let slots: Vec<String> = self.slots.iter().map(slot).collect();
        let plans: Vec<String> = self.plans.iter().map(usize::to_string).collect();
        format!(
            "{{\"pieces\":[{}],\"slots\":[{}],\"plans\":[{}]}}",
            pieces.join(","),
            slots.join(","),
            plans.join(",")
        )
    }
}

fn clock(evening: &Evening, layout: &Layout, moments: &[usize]) -> Changes {
    let piece = |moment: &usize| {
        let x = layout.across(evening.clock_after(*moment));
        format!(
            "<rect class=\"past\" width=\"{x:.2}%\" height=\"100%\"/>\
             <line class=\"clock\" x1=\"{x:.2}%\" x2=\"{x:.2}%\" y2=\"100%\"/>"
        )
    };
    moments.iter().map(piece).enumerate().collect()
}

/// For each lane, in the order of the blocks, the changes of each of its parts.
fn lanes(evening: &Evening, layout: &Layout) -> Vec<Vec<Changes>> {
    let bands = || layout.blocks.iter().flat_map(Block::bands);
    let windows = || layout.cuts.windows(2);
    let mut all: Vec<Vec<Changes>> =
        bands().map(|_| windows().map(|_| Vec::new()).collect()).collect();
    let mut before: Option<Rc<[Lane]>> = None;
    let shown = lanes::walk(evening).zip(&evening.entries).filter(|(_, entry)| !entry.asked);
    for (step, (lanes, _)) in shown.enumerate() {
        for (parts, band) in all.iter_mut().zip(bands()) {
            let old = before.as_ref().map(|before| &before[band.lane]);
            let new = &lanes[band.lane];
            if old == Some(new) {
                continue;
            }
            for (part, cuts) in parts.iter_mut().zip(windows()) {
                let now = new.between(cuts[0], cuts[1]);
                if old.is_none_or(|old| old.between(cuts[0], cuts[1]) != now) {
                    part.push((step, numbers::piece(layout, &now, band)));
                }
            }
        }
        before = Some(lanes);
    }
    all
}

fn bar(evening: &Evening, moments: &[usize], layout: &Layout, row: &Row) -> Changes {
    let mut changes = Vec::new();
    let charge = &evening.charges[row.charge];
    let mut before = None;
    for (step, moment) in moments.iter().enumerate() {
        let ghost = ghost(evening, row.charge, *moment);
        let face = Face::of(charge, *moment, evening.clock_after(*moment), ghost);
        if step == 0 || face != before {
            let piece = face.map_or(String::new(), |face| bar::piece(layout, row, charge, &face));
            changes.push((step, piece));
        }
        before = face;
    }
    changes
}

/// Where a waiting charge was before a plan that was taken, or would be by an offer that was kept
/// out; None where that is the start that it has.
fn ghost(evening: &Evening, place: usize, moment: usize) -> Option<u64> {
    let (entry, charge): (&Entry, &Charge) =
        (evening.entries.get(moment)?, &evening.charges[place]);
    if !entry.sort.is_plan() || entry.planned_feeder() != Some(charge.feeder) {
        return None;
    }
    let before = moment.checked_sub(1)?;
    let waits = |charge: &Charge| {
        charge.ordered_by(before) && !charge.begun_by(moment) && !charge.withdrawn_by(moment)
    };
    if !waits(charge) {
        return None;
    }
    let ghost = match (entry.sort, &entry.call) {
        (Sort::Taken, _) => charge.start_after(before),
        (Sort::Kept, Ok(Call::Offer { feeder, starts })) => {
            let those = evening.charges[..place].iter();
            let earlier = those.filter(|one| one.feeder == *feeder && waits(one)).count();
            starts.get(earlier).map(|start| u64::from(*start))
        }
        _ => None,
    };
    ghost.filter(|ghost| charge.start_after(moment) != Some(*ghost))
}

/// Inside of a script element nothing may look like the end of one, or like a comment.
fn quoted(text: &str) -> String {
    let text = text.replace('\\', "\\\\").replace('"', "\\\"").replace('\n', "\\n");
    format!("\"{}\"", text.replace("</", "<\\/").replace("<!", "\\u003c!"))
}
