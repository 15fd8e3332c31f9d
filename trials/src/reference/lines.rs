//! "Each line has a cap for every minute, N at first. One round: with no waiting
//! charge placed, for each line, 1 to 3 in turn", its waiting charges are placed: "In a
//! line, replan by lines now finds the smallest start at which any unplaced charge
//! fits, and among those that fit there takes the one with the largest weight/p,
//! unrounded, then the smaller d − p, then the smaller ticket" (N5). One fits where the
//! start is not below the clock "with the line's count, itself included, at or below the
//! cap in all its minutes. Then find the first minute t in which two counts differ by
//! more than D". "A replan touches one feeder and places no charge where the site would pass W,
//! counting other feeders' charges, all begun ones and those placed so far" (N14): those that
//! the round has placed on the lines before count too.

use super::judge::{List, ALLOWANCE_SPENT, NO_START};
use super::latest::in_ticket_order;
use super::minutes::{count_charge, counts, site_counts, Counts, Rules};
use super::priority::Crowd;
use super::station::{last_clear, Charge, Station};

/// The caps of the three lines in one minute; minutes as in the counts.
type Caps = Vec<[u64; 3]>;

/// What a round made: the waiting charges with starts, and all counts.
struct Round {
    placed: Vec<Charge>,
    counts: Vec<Counts>,
}

impl Station {
    /// The list, and the rounds made.
    pub fn lines_list(&self, feeder: u32, allowance: u32) -> (List, u32) {
        let rules = self.rules(feeder);
        let mut caps: Caps = vec![[rules.limit; 3]; self.minutes_of_a_round(feeder) as usize];
        let mut rounds = 0;
        loop {
            let round = self.round(feeder, &caps);
            rounds += 1;
            let Some(minute) = first_unbalanced(&round.counts, rules) else {
                return (Ok(in_ticket_order(round.placed)), rounds);
            };
            let (largest, smallest) = extremes(&round.counts[minute]);
            if !self.placed_there(&round.placed, largest, minute) {
                return (Err(NO_START), rounds);
            }
            if rounds == allowance {
                return (Err(ALLOWANCE_SPENT), rounds);
            }
            let lowered = round.counts[minute][smallest] + rules.bound;
            for cap in &mut caps[minute..] {
                cap[largest] = cap[largest].min(lowered);
            }
        }
    }

    /// Enough minutes for any round: a charge has room at the latest after all
    /// others of the site, since no cap is ever below D, and no rate is above D or W.
    fn minutes_of_a_round(&self, feeder: u32) -> u64 {
        let waiting: u64 = self.waiting(feeder).iter().map(Charge::active_time).sum();
        last_clear(&self.unmoved(feeder)).max(self.clock) - self.clock + waiting
    }

    fn round(&self, feeder: u32, caps: &Caps) -> Round {
        let length = caps.len() as u64;
        let mut counts = counts(&self.begun(feeder), self.clock, length);
        let mut site = site_counts(&self.unmoved(feeder), self.clock, length);
        let mut placed = Vec::new();
        for line in 1..=3 {
            let mut unplaced = self.waiting(feeder);
            unplaced.retain(|charge| charge.line == line);
            let crowd = Crowd::of(&unplaced);
            while !unplaced.is_empty() {
                let (line, limit) = (line as usize - 1, self.site_limit);
                let room = Room { counts: &counts, caps, line, site: &site, limit };
                let start = room.start_of_any(&unplaced);
                let place = self.next_at(start, &room, &unplaced, crowd);
                let charge = unplaced.remove(place).starting_at(self.clock + start);
                count_charge(&mut counts, &charge, self.clock);
                let own = start as usize..(start + charge.active_time()) as usize;
                site[own].iter_mut().for_each(|count| *count += charge.weight());
                placed.push(charge);
            }
        }
        Round { placed, counts }
    }

    /// The place of the unplaced charge that is taken at this start: "among those that
    /// fit there".
    fn next_at(&self, start: u64, room: &Room, unplaced: &[Charge], crowd: Crowd) -> usize {
        let fitting = (0..unplaced.len()).filter(|place| room.fits(&unplaced[*place], start));
        let minute = self.clock + start;
        fitting
            .min_by(|one, other| crowd.turn(minute, &unplaced[*one], &unplaced[*other]))
            .expect("one fits at the smallest start")
    }

    /// Whether a placed charge of the line is active there, of whatever rate. A begun
    /// one is not placed, so it does not count.
    fn placed_there(&self, placed: &[Charge], line: usize, minute: usize) -> bool {
        let minute = self.clock + minute as u64;
        placed.iter().any(|charge| charge.line as usize == line + 1 && charge.active_in(minute))
    }
}

/// "the first minute t in which two counts differ by more than D, from the clock on", as a
/// place of the arrays.
fn first_unbalanced(counts: &[Counts], rules: Rules) -> Option<usize> {
    counts.iter().position(|counts| !rules.balanced(counts))
}

/// What one line has left under its cap, and the site under its limit. Starts are counted from
/// the clock.
struct Room<'a> {
    counts: &'a [Counts],
    caps: &'a Caps,
    /// Place 0 to 2.
    line: usize,
    site: &'a [u64],
    limit: u64,
}

impl Room<'_> {
    /// "with the line's count, itself included, at or below the cap", and not "where the site
    /// would pass W", in one minute
    fn has_room(&self, weight: u64, minute: usize) -> bool {
        self.counts[minute][self.line] + weight <= self.caps[minute][self.line]
            && self.site[minute] + weight <= self.limit
    }

    /// "in all its minutes": the active ones, tail included (N7)
    fn fits(&self, charge: &Charge, start: u64) -> bool {
        let mut minutes = start..start + charge.active_time();
        minutes.all(|minute| self.has_room(charge.weight(), minute as usize))
    }

    /// "the smallest start at which any unplaced charge fits". Where one fits, every
    /// shorter one of its rate does, so the shortest of each rate stand for all.
    fn start_of_any(&self, unplaced: &[Charge]) -> u64 {
        let shortest = |rate| {
            let of_rate = unplaced.iter().filter(move |charge| charge.rate == rate);
            of_rate.min_by_key(|charge| charge.time)
        };
        let starts = [1, 2].into_iter().filter_map(shortest).map(|charge| self.first_of(charge));
        starts.min().expect("a charge is unplaced")
    }

    /// The smallest start at which this charge fits: the first run of as many minutes in a
    /// row with room for its rate as it is active.
    fn first_of(&self, charge: &Charge) -> u64 {
        let mut in_a_row = 0;
        for minute in 0..self.caps.len() {
            let has_room = self.has_room(charge.weight(), minute);
            in_a_row = if has_room { in_a_row + 1 } else { 0 };
            if in_a_row == charge.active_time() {
                return minute as u64 + 1 - in_a_row;
            }
        }
        unreachable!("the minutes in which nothing else of the site is active have room")
    }
}

/// "i is the line with the largest count in t and j the one with the smallest,
/// lowest line first among equals", as places 0 to 2.
fn extremes(counts: &Counts) -> (usize, usize) {
    let (mut largest, mut smallest) = (0, 0);
    for line in 1..3 {
        if counts[line] > counts[largest] {
            largest = line;
        }
        if counts[line] < counts[smallest] {
            smallest = line;
        }
    }
    (largest, smallest)
}
