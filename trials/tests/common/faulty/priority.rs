//! Which charge of a line is taken at a start, with an error in the choice.

use super::lists::turn;
use super::{Error, Faulty};
use std::cmp::Ordering;
use trials::reference::priority::{e, Crowd};
use trials::reference::Charge;

/// The place of the table whose number has lost its first digit.
const WRONG_PLACE: u64 = 100;

impl Faulty {
    /// One of those that fit, or of all, if that is the error.
    pub fn chosen(
        &self,
        own: &[Charge],
        unplaced: &[Charge],
        start: u64,
        fits: impl Fn(&Charge) -> bool,
    ) -> Charge {
        let crowd = match self.error {
            Error::NumbersShrink => Crowd::of(unplaced),
            _ => Crowd::of(own),
        };
        let looked_at =
            unplaced.iter().filter(|charge| self.error == Error::ChargeChosenFirst || fits(charge));
        let foremost = looked_at.min_by(|one, other| {
            let by_weight = self.by_weight(crowd, start, one, other);
            let (mine, theirs) = (turn(self.error, one), turn(self.error, other));
            match self.error {
                Error::LatestStartBeforeWeight => mine.0.cmp(&theirs.0).then(by_weight),
                _ => by_weight.then(mine.0.cmp(&theirs.0)),
            }
            .then(mine.1.cmp(&theirs.1))
        });
        *foremost.expect("one fits at the smallest start")
    }

    fn by_weight(&self, crowd: Crowd, start: u64, one: &Charge, other: &Charge) -> Ordering {
        let [mine, theirs] = [one, other].map(|charge| self.weight(crowd, start, charge));
        match self.error {
            Error::WeightRounded => (theirs / other.time).cmp(&(mine / one.time)),
            _ => (theirs * one.time).cmp(&(mine * other.time)),
        }
    }

    fn weight(&self, crowd: Crowd, start: u64, charge: &Charge) -> u64 {
        let slack = charge.due as i64 - start as i64 - charge.time as i64;
        if slack < 0 && self.error == Error::SlackNotCutOff {
            return 0;
        }
        let k = 256 * slack.max(0) as u64 * crowd.number / crowd.time;
        match self.error {
            Error::OneWrongNumber if k == WRONG_PLACE => e(k) % 100_000_000,
            Error::TableOnePlaceTooFar => e(k + 1),
            Error::TableTooLong if k == 512 => e(511) * 63 / 64,
            _ => e(k),
        }
    }
}
