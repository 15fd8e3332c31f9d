//! One station, from its opening to the next: its charges and its calls.

use super::charge::Charge;
use super::entry::Entry;
use super::lanes::{self, Lane};
use crate::told::Site;
use std::rc::Rc;

#[derive(Debug)]
pub struct Evening {
    pub site: Site,
    /// In the order of their tickets, as they were given.
    pub charges: Vec<Charge>,
    pub entries: Vec<Entry>,
    pub clock: u64,
    /// The largest number that each lane ever has.
    pub highest: Vec<u64>,
}

impl Evening {
    pub(super) fn of(site: Site) -> Evening {
        let (charges, entries, highest) = (Vec::new(), Vec::new(), Vec::new());
        Evening { site, charges, entries, clock: 0, highest }
    }

    /// The moment after its last call.
    pub fn last(&self) -> usize {
        self.entries.len().saturating_sub(1)
    }

    pub fn clock_after(&self, moment: usize) -> u64 {
        self.entries.get(moment).map_or(0, |entry| entry.clock)
    }

    /// The lines of the script: what was asked for the picture is left out.
    pub fn shown(&self) -> impl Iterator<Item = (usize, &Entry)> {
        self.entries.iter().enumerate().filter(|(_, entry)| !entry.asked)
    }

    /// Counts, spreads and the site's sum after the last call.
    pub fn last_lanes(&self) -> Rc<[Lane]> {
        lanes::at(self, self.last())
    }

    /// The first minute that a picture has to show, and the one after the last. No charge of a
    /// sound station ends after the last order minute plus the times of all orders, so what is
    /// told to be later than that is cut off, and one wrong number does not hide all others.
    pub fn span(&self) -> (u64, u64) {
        let orders = self.charges.iter();
        let first = orders.clone().map(|charge| charge.ordered.minute).min().unwrap_or(0);
        let last = orders.clone().map(|charge| charge.ordered.minute).max().unwrap_or(0);
        let times = orders.clone().map(|charge| charge.time + charge.tail).sum::<u64>();
        let held = |charge: &Charge| {
            let starts = charge.held.iter().filter_map(|held| held.start);
            starts.map(|start| charge.clear(start)).max()
        };
        let clear = orders.filter_map(held).max().unwrap_or(0);
        (first, clear.min(last + times).max(first + 1))
    }

    /// What came out by a question stands with the call of the script before it.
    pub(super) fn gather(&mut self) {
        let mut own = 0;
        for moment in 0..self.entries.len() {
            if !self.entries[moment].asked {
                own = moment;
                continue;
            }
            let found = std::mem::take(&mut self.entries[moment].broken);
            let told = found.iter().map(|what| format!("asked after it: {what}"));
            self.entries[own].broken.extend(told);
        }
    }
}
