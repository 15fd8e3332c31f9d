//! "Replan by lines". The profile of the begun charges, and of the other feeders' for the
//! site, is made once; each round places all three lines again on a copy of it, because they
//! share what the site has left (N14). In a line the smallest start at which
//! any unplaced charge fits never falls from one to the next, so that one walk over the
//! steps serves all of them, and weights are worked out once for each start.

use super::plan::{ALLOWANCE_SPENT, NO_START};
use super::priority::{foremost, shortest, Crowd};
use super::profile::{Counts, Load, Profile, NEVER, SITE};
use super::station::Station;
use crate::yard::Planned;

/// A cap never rises along the minutes. Place k holds the first minute from which
/// the cap is at most k; so a minute t with count k has room for one more exactly when
/// t is below place k, and for two when t is below place k + 1.
#[derive(Clone, Copy)]
struct Caps([u32; 62]);

impl Caps {
    fn new(limit: u16) -> Caps {
        let mut first = [NEVER; 62];
        first[usize::from(limit)..].fill(0);
        Caps(first)
    }

    /// From the minute on the cap becomes the smaller of itself and this one.
    fn lower(&mut self, minute: u32, cap: u16) {
        for first in self.0.iter_mut().skip(usize::from(cap)) {
            *first = (*first).min(minute);
        }
    }

    /// The minute before which a count leaves room for the rate.
    fn room(&self, count: u16, rate: u16) -> u32 {
        self.0[usize::from(count + rate - 1)]
    }
}

/// What a line of a round may take: up to its caps, and of the site up to its limit.
#[derive(Clone, Copy)]
struct Line<'a> {
    place: usize,
    caps: &'a Caps,
    site: u16,
}

impl Line<'_> {
    /// The minute before which these counts leave room for the rate.
    fn room(&self, counts: Counts, rate: u16) -> u32 {
        match counts[SITE] + rate <= self.site {
            true => self.caps.room(counts[self.place], rate),
            false => 0,
        }
    }
}

impl Station {
    pub fn by_lines(&mut self, place: usize, allowance: u32) -> Planned {
        let feeder = &self.feeders[place];
        let rules = feeder.rules;
        let mut caps = [Caps::new(rules.limit); 3];
        let waiting = self.in_latest_start_order(place);
        let mut starts = vec![0; waiting.len()];
        let crowds = [0, 1, 2].map(|line| {
            let own = waiting.iter().filter(|(_, charge)| charge.line == line);
            Crowd::of(own, feeder.tail)
        });
        let begun = self.profile(place, feeder.begun(self.clock));
        let mut profile = Profile::empty(self.clock);
        let mut rounds = 0;
        loop {
            profile.copy_from(&begun);
            for place in 0..3 {
                let line = Line { place, caps: &caps[place], site: rules.site };
                self.place_line(line, &mut profile, &crowds[place], &mut starts);
            }
            rounds += 1;
            let Some((minute, counts)) = profile.first_unbalanced(rules) else {
                return self.take_or_keep(place, &starts, rounds);
            };
            let (largest, smallest) = extremes(counts);
            if !any_placed(minute, &crowds[largest], &starts) {
                return self.keep(place, NO_START, rounds);
            }
            if rounds == allowance {
                return self.keep(place, ALLOWANCE_SPENT, rounds);
            }
            caps[largest].lower(minute, counts[smallest] + rules.bound);
        }
    }

    /// One line of a round; the starts go to their places in the list.
    fn place_line(&self, line: Line, profile: &mut Profile, crowd: &Crowd, starts: &mut [u32]) {
        let mut unplaced = crowd.waiting.clone();
        let mut shortest_of_rate = shortest(&unplaced);
        let mut start = self.clock;
        crowd.weigh(&mut unplaced, start);
        while !unplaced.is_empty() {
            let next = start_of_any(profile, start, shortest_of_rate, line);
            if next != start {
                start = next;
                crowd.weigh(&mut unplaced, start);
            }
            let room = [1, 2].map(|rate| match shortest_of_rate[usize::from(rate) - 1] {
                NEVER => 0,
                _ => profile.run_from(start, crowd.longest, |counts| line.room(counts, rate)),
            });
            let chosen = unplaced.remove(foremost(&unplaced, room));
            profile.add(Load {
                line: line.place,
                rate: chosen.rate,
                from: start,
                until: start + chosen.active,
            });
            starts[chosen.place] = start;
            if chosen.active == shortest_of_rate[usize::from(chosen.rate) - 1] {
                shortest_of_rate = shortest(&unplaced);
            }
        }
    }
}

/// The smallest start from `least` on at which the shortest charge of a rate fits.
fn start_of_any(profile: &Profile, least: u32, shortest: [u32; 2], line: Line) -> u32 {
    let of_rate = |rate: u16| match shortest[usize::from(rate) - 1] {
        NEVER => NEVER,
        time => profile.first_run(least, time, |counts| line.room(counts, rate)),
    };
    of_rate(1).min(of_rate(2))
}

/// Whether a placed charge of the line is active in the minute.
fn any_placed(minute: u32, crowd: &Crowd, starts: &[u32]) -> bool {
    crowd.waiting.iter().any(|waiting| {
        let start = starts[waiting.place];
        start <= minute && minute < start + waiting.active
    })
}

/// The lines with the largest and the smallest count, the lowest among equals.
fn extremes(counts: Counts) -> (usize, usize) {
    let (mut largest, mut smallest) = (0, 0);
    for line in 1..3 {
        if counts[line] > counts[largest] {
            largest = line;
        }
        if counts[line] < counts[smallest] {
            smallest = line;
        }
    }
    (largest, smallest)
}
