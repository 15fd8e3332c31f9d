//! "The **count** of a line in a minute": change minutes in rising order with the
//! three counts of a feeder's lines from there on, and as the fourth the count of the whole
//! site (N14). A charge of rate 2 counts as two; offers bring a line up to 360, and the site
//! up to 1,440. 180 charges make at most 361 steps, since every change is a start or
//! an end, and the first step begins at the clock. The last step has no end and counts
//! nothing.

/// Room for the steps of 180 charges; those of further feeders make it grow.
const STEPS: usize = 361;
/// Every minute is below it.
pub const NEVER: u32 = u32::MAX;
/// The place of the site's count, and the line of a load of another feeder.
pub const SITE: usize = 3;

/// The counts of lines 1 to 3 of the feeder, and of the site.
pub type Counts = [u16; 4];

/// What a charge draws: line (from 0, or that of another feeder), rate, first minute, minute
/// after the last.
#[derive(Clone, Copy)]
pub struct Load {
    pub line: usize,
    pub rate: u16,
    pub from: u32,
    pub until: u32,
}

/// What an order asks for: line (from 0), rate, time.
#[derive(Clone, Copy)]
pub struct Wanted {
    pub line: usize,
    pub rate: u16,
    pub time: u32,
}

/// What the test of a candidate start found: whether the charge fits there, how many
/// minutes were looked at (N6), and the step of the last one of them.
#[derive(Clone, Copy, Debug, PartialEq, Eq)]
pub struct Tested {
    pub fits: bool,
    pub looked: u32,
    pub step: usize,
}

/// The limit N and the bound D of a feeder, and the site limit W.
#[derive(Clone, Copy)]
pub struct Rules {
    pub limit: u16,
    pub bound: u16,
    pub site: u16,
}

impl Rules {
    fn balanced(self, counts: Counts) -> bool {
        let [a, b, c, _] = counts;
        a.max(b).max(c) - a.min(b).min(c) <= self.bound
    }

    fn within_limit(self, counts: Counts) -> bool {
        let [a, b, c, _] = counts;
        a.max(b).max(c) <= self.limit
    }

    /// Whether the feeder is sound.
    fn sound(self, counts: Counts) -> bool {
        self.within_limit(counts) && self.balanced(counts)
    }

    fn within_site(self, counts: Counts) -> bool {
        counts[SITE] <= self.site
    }

    /// Whether the feeder is sound and the site within its limit, with one more load.
    fn fits(self, mut counts: Counts, line: usize, rate: u16) -> bool {
        counts[line] += rate;
        counts[SITE] += rate;
        self.within_site(counts) && self.sound(counts)
    }
}

/// A step lasts from its first minute to that of the next one.
#[derive(Clone, Copy)]
struct Step {
    from: u32,
    counts: Counts,
}

pub struct Profile {
    steps: Vec<Step>,
}

impl Profile {
    /// Nothing draws from the clock on.
    pub fn empty(clock: u32) -> Profile {
        let mut steps = Vec::with_capacity(STEPS);
        steps.push(Step { from: clock, counts: [0; 4] });
        Profile { steps }
    }

    /// Takes the steps of another one, in the room that it has.
    pub fn copy_from(&mut self, other: &Profile) {
        self.steps.clone_from(&other.steps);
    }

    /// Load after load, all unfinished, as the proved program makes it.
    pub fn of(loads: impl Iterator<Item = Load>, clock: u32) -> Profile {
        let mut profile = Profile::empty(clock);
        for load in loads {
            profile.add(Load { from: load.from.max(clock), ..load });
        }
        profile
    }

    pub fn until(&self, step: usize) -> u32 {
        self.steps.get(step + 1).map_or(NEVER, |next| next.from)
    }

    /// The step that a minute lies in.
    pub fn step_of(&self, minute: u32) -> usize {
        self.steps.partition_point(|step| step.from <= minute) - 1
    }

    /// Adds a load: at most two steps are split, those between are raised.
    pub fn add(&mut self, load: Load) {
        let first = self.split_at(load.from);
        let after = self.split_at(load.until);
        let mut more = [0; 4];
        (more[load.line], more[SITE]) = (load.rate, load.rate);
        for step in &mut self.steps[first..after] {
            for (count, more) in step.counts.iter_mut().zip(more) {
                *count += more;
            }
        }
    }

    /// The step that begins at the minute, made if there is none.
    fn split_at(&mut self, minute: u32) -> usize {
        let step = self.step_of(minute);
        let Step { from, counts } = self.steps[step];
        if from == minute {
            return step;
        }
        self.steps.insert(step + 1, Step { from: minute, counts });
        step + 1
    }

    /// The first start from `least` on with `time` minutes in a row that have
    /// room. `room` answers, for a step's counts, the minute before which it has
    /// room. After a failing minute the next candidate is the end of that step.
    pub fn first_run(&self, least: u32, time: u32, room: impl Fn(Counts) -> u32) -> u32 {
        let mut start = least;
        let mut step = self.step_of(least);
        loop {
            let until = self.until(step);
            let room_until = room(self.steps[step].counts).min(until);
            if room_until > start && room_until - start >= time {
                return start;
            }
            if room_until < until || room_until <= start {
                start = until;
            }
            step += 1;
        }
    }

    /// The test of a candidate start, which lies in the step. It ends at the first failing
    /// minute. A step fails in all its minutes or in none, so the number of minutes comes
    /// from where steps begin.
    pub fn test(&self, mut step: usize, start: u32, wanted: Wanted, rules: Rules) -> Tested {
        let mut minute = start;
        loop {
            if !rules.fits(self.steps[step].counts, wanted.line, wanted.rate) {
                return Tested { fits: false, looked: minute - start + 1, step };
            }
            minute = self.until(step);
            if minute - start >= wanted.time {
                return Tested { fits: true, looked: wanted.time, step };
            }
            step += 1;
        }
    }

    /// How many minutes in a row have room from `start` on, up to `most`. Other feeders may
    /// fill the site in a step behind, which then has no room at all.
    pub fn run_from(&self, start: u32, most: u32, room: impl Fn(Counts) -> u32) -> u32 {
        let mut step = self.step_of(start);
        let mut reached = start;
        loop {
            let until = self.until(step);
            let room_until = room(self.steps[step].counts).min(until);
            if room_until < until || room_until - start >= most {
                return (room_until.max(reached) - start).min(most);
            }
            reached = until;
            step += 1;
        }
    }

    /// The smallest start from `least` on at which one more load of the line and the
    /// rate leaves its own minutes sound and the site within its limit.
    pub fn earliest(&self, line: usize, rate: u16, time: u32, least: u32, rules: Rules) -> u32 {
        self.first_run(least, time, |counts| match rules.fits(counts, line, rate) {
            true => NEVER,
            false => 0,
        })
    }

    pub fn is_sound(&self, rules: Rules) -> bool {
        self.steps.iter().all(|step| rules.sound(step.counts))
    }

    pub fn within_site(&self, rules: Rules) -> bool {
        self.steps.iter().all(|step| rules.within_site(step.counts))
    }

    /// Each line of the feeder within its limit, and the site within its own.
    pub fn within_limits(&self, rules: Rules) -> bool {
        let within =
            |step: &Step| rules.within_limit(step.counts) && rules.within_site(step.counts);
        self.steps.iter().all(within)
    }

    /// The first minute in which two counts differ by more than D, with the counts.
    pub fn first_unbalanced(&self, rules: Rules) -> Option<(u32, Counts)> {
        let step = self.steps.iter().find(|step| !rules.balanced(step.counts))?;
        Some((step.from, step.counts))
    }

    /// The first minute in which the feeder is unsound, and the one after the last.
    pub fn unsound_span(&self, rules: Rules) -> Option<(u32, u32)> {
        let unsound = |step: &usize| !rules.sound(self.steps[*step].counts);
        let first = (0..self.steps.len()).find(unsound)?;
        let last = (0..self.steps.len()).rfind(unsound)?;
        Some((self.steps[first].from, self.until(last)))
    }
}
