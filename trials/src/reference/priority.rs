//! "among those that fit there takes the one with the largest weight/p, unrounded, then
//! the smaller d − p, then the smaller ticket" (N5).

use super::station::Charge;
use std::cmp::Ordering;
use std::iter::successors;
use std::sync::LazyLock;

/// "E stands as a table for k from 0 to 511, and the weight is 0 beyond."
pub const PLACES_OF_E: usize = 512;

/// "E(0) is 2^30, and E(k + 1) is E(k) × 63 / 64 rounded down". It goes on without an end;
/// who reads it stops after 511.
pub fn numbers_of_e() -> impl Iterator<Item = u64> {
    successors(Some(1 << 30), |number| Some(number * 63 / 64))
}

/// The numbers worked out once, because every choice of a charge reads many of them.
static TABLE: LazyLock<Vec<u64>> = LazyLock::new(|| numbers_of_e().take(PLACES_OF_E).collect());

/// E(k), 0 beyond the table.
pub fn e(k: u64) -> u64 {
    usize::try_from(k).ok().and_then(|place| TABLE.get(place)).copied().unwrap_or(0)
}

/// "n and P the number and summed p of the line's waiting charges when the round begins"
#[derive(Clone, Copy, Debug, PartialEq, Eq)]
pub struct Crowd {
    pub number: u64,
    pub time: u64,
}

impl Crowd {
    pub fn of(waiting: &[Charge]) -> Crowd {
        let time = waiting.iter().map(|charge| charge.time).sum();
        Crowd { number: waiting.len() as u64, time }
    }

    /// "k being 256 × m × n / P rounded down, m = max(0, d − start − p)"
    pub fn weight(&self, charge: &Charge, start: u64) -> u64 {
        let slack = charge.due as i64 - start as i64 - charge.time as i64;
        let m = slack.max(0) as u64;
        e(256 * m * self.number / self.time)
    }

    /// Whether a charge is taken at the start before another one. One weight/p is larger
    /// than another exactly where its weight times the other p is, so nothing is rounded.
    pub fn turn(&self, start: u64, one: &Charge, other: &Charge) -> Ordering {
        let mine = self.weight(one, start) * other.time;
        let theirs = self.weight(other, start) * one.time;
        let by_latest_start = one.latest_start().cmp(&other.latest_start());
        theirs.cmp(&mine).then(by_latest_start).then(one.ticket.cmp(&other.ticket))
    }
}

#[cfg(test)]
mod tests {
    use super::*;

    #[test]
    fn the_first_numbers_and_the_last() {
        let first = [1_073_741_824, 1_056_964_608, 1_040_449_536, 1_024_192_512];
        assert_eq!([0, 1, 2, 3].map(e), first);
        assert_eq!([511, 512, 513, u64::MAX].map(e), [343_490, 0, 0, 0]);
    }

    fn charge(ticket: u32, time: u64, due: u64) -> Charge {
        Charge { ticket, feeder: 1, line: 1, order: 0, time, due, rate: 1, start: 0, tail: 0 }
    }

    /// Case h: with n 2 and P 20 a slack of 50 gives k 1,280, one of 5 gives 128.
    #[test]
    fn weights_of_case_h() {
        let (one, other) = (charge(1, 10, 60), charge(2, 10, 15));
        let crowd = Crowd::of(&[one, other]);
        assert_eq!(crowd, Crowd { number: 2, time: 20 });
        assert_eq!([crowd.weight(&one, 0), crowd.weight(&other, 0)], [0, e(128)]);
        assert_eq!(crowd.turn(0, &one, &other), Ordering::Greater);
    }

    /// A due minute that has gone by leaves no slack, and a slack of 0 is no less urgent.
    #[test]
    fn slack_is_cut_off_at_zero() {
        let crowd = Crowd { number: 2, time: 20 };
        for (due, start) in [(0, 0), (9, 0), (10, 0), (60, 50), (60, 1_000_000)] {
            assert_eq!(crowd.weight(&charge(1, 10, due), start), 1 << 30);
        }
        assert_eq!(crowd.weight(&charge(1, 10, 11), 0), e(25));
    }

    /// E(0) / 64 is E(1) / 63, both 2^24: the smaller d − p, here that of no slack, goes
    /// first; where that is the same too, the smaller ticket.
    #[test]
    fn ties() {
        let crowd = Crowd { number: 1, time: 256 };
        let (urgent, loose) = (charge(2, 64, 64), charge(1, 63, 64));
        assert_eq!([crowd.weight(&urgent, 0), crowd.weight(&loose, 0)], [e(0), e(1)]);
        assert_eq!(crowd.turn(0, &urgent, &loose), Ordering::Less);
        assert_eq!(crowd.turn(0, &charge(1, 10, 60), &charge(2, 10, 60)), Ordering::Less);
    }
}
