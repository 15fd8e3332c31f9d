//! Openings with an error in how the bound is rounded, or in when they are refused for
//! it.

use super::{Error, Faulty};
use trials::reference::{Feeder, Station};
use trials::yard::{Opening, Refusal, Settings, Yard};

/// The bound from c × N, where the error is about it.
fn wrong_bound(error: Error, hundredths: u64) -> Option<u64> {
    match error {
        Error::HalfUp => Some((hundredths + 50) / 100),
        Error::HalfDown => Some((hundredths + 49) / 100),
        Error::RoundedUp => Some(hundredths.div_ceil(100)),
        Error::RoundedDown | Error::RoundedDownAndOpened => Some(hundredths / 100),
        _ => None,
    }
}

impl Faulty {
    /// The answer of the reference, and the station with the wrong bounds or refusal.
    pub fn opened(&mut self, opening: &Opening) -> Result<Vec<u32>, Refusal> {
        let answer = self.station.open(opening);
        if matches!(answer, Err(1 | 2 | 27)) {
            return answer;
        }
        let feeders: Vec<Feeder> =
            opening.up_to_count().map(|feeder| self.wrong_feeder(feeder)).collect();
        self.station = Station::fresh(1, 100, 0);
        if feeders.iter().any(|feeder| self.refused_for(feeder)) {
            return Err(3);
        }
        if feeders.iter().any(|feeder| feeder.tail > 5) {
            return Err(19);
        }
        if !(1..=720).contains(&opening.site_limit) {
            return Err(28);
        }
        self.station = Station::of(opening.site_limit.into(), feeders);
        Ok(self.station.feeders.iter().map(|feeder| feeder.bound as u32).collect())
    }

    fn wrong_feeder(&self, settings: Settings) -> Feeder {
        let Settings { limit, percent, tail } = settings;
        let right = Feeder::new(limit.into(), percent.into(), tail.into());
        let bound = wrong_bound(self.error, right.percent * right.limit).unwrap_or(right.bound);
        Feeder { bound, ..right }
    }

    fn refused_for(&self, feeder: &Feeder) -> bool {
        let Feeder { limit, percent, bound, tail } = *feeder;
        match self.error {
            Error::RefusedBelowAHundred => percent * limit < 100,
            Error::RoundedDownAndOpened => Feeder::new(limit, percent, tail).bound == 0,
            _ => bound == 0,
        }
    }
}
