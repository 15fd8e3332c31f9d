//! What an opening says of a site: the limits and bounds that hold from then on.

use super::spread;
use crate::yard::{Opening, Settings};
use std::cmp::Ordering;

/// Limit, bound and r of a feeder.
#[derive(Clone, Debug, PartialEq, Eq)]
pub struct Feeder {
    pub limit: u64,
    pub bound: u64,
    pub tail: u64,
}

impl Feeder {
    pub fn sound(&self, counts: &[i64; 3]) -> bool {
        let largest = counts.iter().max().copied().unwrap_or(0);
        largest <= self.limit as i64 && spread(counts) <= self.bound as i64
    }
}

/// What is fixed by an opening.
#[derive(Clone, Debug, PartialEq, Eq)]
pub struct Site {
    pub feeders: Vec<Feeder>,
    /// W
    pub limit: u64,
}

impl Site {
    /// "limit and bound are that station's N and D", and with N14 each feeder's own.
    pub fn from_opening(opening: &Opening) -> Site {
        let feeder = |settings: Settings| {
            let (limit, percent) = (u64::from(settings.limit), u64::from(settings.percent));
            Feeder { limit, bound: nearest(limit * percent), tail: settings.tail.into() }
        };
        let feeders = opening.up_to_count().map(feeder).collect();
        Site { feeders, limit: opening.site_limit.into() }
    }

    /// The station of 1, 100, before the first opening and beside a refused one; there "r is
    /// 0" (N7), and there "stand one feeder and W 720" (N14).
    pub fn beside_a_refusal() -> Site {
        Site::from_opening(&Opening::of_one(1, 100, 0))
    }

    /// The feeder with this number, "from 1", if there is one.
    pub fn feeder(&self, number: u32) -> Option<&Feeder> {
        self.feeders.get((number as usize).checked_sub(1)?)
    }
}

/// So many hundredths "rounded to the nearest whole number, an exact half to the even
/// one" (N3).
fn nearest(hundredths: u64) -> u64 {
    let below = hundredths / 100;
    match (hundredths % 100).cmp(&50) {
        Ordering::Less => below,
        Ordering::Equal => below + below % 2,
        Ordering::Greater => below + 1,
    }
}
