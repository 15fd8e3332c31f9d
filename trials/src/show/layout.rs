//! Where everything of an evening stands. Lengths along the time axis are in hundredths of the
//! width, so that the same drawing fits a phone, a desk and paper, and its letters keep their
//! size on each. It is a row of blocks, so that a sheet of paper can end between them.

use super::charge::Charge;
use super::evening::Evening;
use super::lanes::Subject;

/// Left of the time axis: tickets and the numbers of scales.
pub const GUTTER: u32 = 50;
/// The height of a lane, and of the row of a charge.
pub const LANE: u32 = 28;
pub const ROW: u32 = 15;
const TITLE: u32 = 17;
const GAP: u32 = 5;
const SCALE: u32 = 18;
/// How many numbers a scale has at most.
const TICKS: u64 = 8;
/// A limit that is so many times what is ever drawn is told and not drawn.
const FAR: u64 = 4;
/// A lane is drawn in one part for so many charges, and in so many parts at most.
const PART: usize = 60;
const PARTS: usize = 64;

pub struct Layout {
    pub first: u64,
    pub last: u64,
    /// Where lanes are cut into parts: an order changes only some of them, so that a page of many
    /// orders stays small.
    pub cuts: Vec<u64>,
    pub blocks: Vec<Block>,
}

/// A drawing with a scale of its own.
pub struct Block {
    /// For those who listen.
    pub name: String,
    pub height: u32,
    /// Above groups of rows.
    pub titles: Vec<(u32, String)>,
    pub parts: Parts,
}

pub enum Parts {
    Lanes(Vec<Band>),
    Charges(Vec<Row>),
}

/// A lane with its place.
pub struct Band {
    /// Among the evening's lanes.
    pub lane: usize,
    pub top: u32,
    /// What its whole height stands for.
    pub full: u64,
}

/// A charge with its place.
pub struct Row {
    /// Among the evening's charges.
    pub charge: usize,
    pub top: u32,
}

impl Layout {
    pub fn of(evening: &Evening) -> Layout {
        let (first, last) = evening.span();
        let mut blocks = lane_blocks(evening);
        let feeders = 1..=evening.site.feeders.len() as u32;
        blocks.extend(feeders.filter_map(|feeder| charge_block(evening, feeder)));
        let parts = (evening.charges.len().div_ceil(PART)).clamp(1, PARTS) as u64;
        let cuts = (0..=parts).map(|part| first + (last - first) * part / parts).collect();
        Layout { first, last, cuts, blocks }
    }

    /// A minute in hundredths of the width, cut off at the edges.
    pub fn across(&self, minute: u64) -> f64 {
        let minute = minute.clamp(self.first, self.last);
        100.0 * (minute - self.first) as f64 / (self.last - self.first) as f64
    }

    /// Whether a minute is inside the picture.
    pub fn shows(&self, minute: u64) -> bool {
        (self.first..=self.last).contains(&minute)
    }

    /// Minutes for the scale: few enough to be read, and numbers in which people think of time.
    pub fn ticks(&self) -> Vec<u64> {
        let paces = [1, 2, 5, 10, 15, 30, 60, 120, 240, 480, 960, 1_920, 3_840, 10_000, 50_000];
        let span = self.last - self.first;
        let pace = paces.into_iter().find(|pace| span / pace <= TICKS).unwrap_or(span / TICKS + 1);
        let begin = self.first.div_ceil(pace) * pace;
        (begin..self.last).step_by(pace as usize).collect()
    }
}

/// The lanes of each feeder, then that of the site.
fn lane_blocks(evening: &Evening) -> Vec<Block> {
    let mut blocks: Vec<Block> = Vec::new();
    for (place, lane) in evening.last_lanes().iter().enumerate() {
        let name = match lane.subject {
            Subject::Line { feeder, line: 1 } => {
                Some(format!("Feeder {feeder}: the count of each line and the spread"))
            }
            Subject::Site => Some("The sum of the site".to_string()),
            _ => None,
        };
        if let Some(name) = name {
            let parts = Parts::Lanes(Vec::new());
            blocks.push(Block { name, height: SCALE, titles: Vec::new(), parts });
        }
        let Some(Block { height, parts: Parts::Lanes(bands), .. }) = blocks.last_mut() else {
            continue;
        };
        let most = evening.highest[place].max(1);
        let full = if lane.most > FAR * most { most } else { lane.most.max(most) };
        bands.push(Band { lane: place, top: *height + TITLE, full });
        *height += TITLE + LANE + GAP;
    }
    blocks
}

/// The charges of a feeder, line by line.
fn charge_block(evening: &Evening, feeder: u32) -> Option<Block> {
    let mut order: Vec<(usize, &Charge)> =
        evening.charges.iter().enumerate().filter(|(_, one)| one.feeder == feeder).collect();
    order.sort_by_key(|(_, charge)| (charge.line, charge.ticket));
    let (mut height, mut line) = (SCALE, 0);
    let (mut titles, mut rows) = (Vec::new(), Vec::new());
    for (place, charge) in order {
        if line != charge.line {
            line = charge.line;
            titles.push((height, format!("feeder {feeder} line {line}")));
            height += TITLE;
        }
        rows.push(Row { charge: place, top: height });
        height += ROW;
    }
    let name = format!("Feeder {feeder}: its charges");
    let some = !rows.is_empty();
    some.then(|| Block { name, height: height + GAP, titles, parts: Parts::Charges(rows) })
}

impl Block {
    pub fn bands(&self) -> &[Band] {
        match &self.parts {
            Parts::Lanes(bands) => bands,
            Parts::Charges(_) => &[],
        }
    }
}

impl Band {
    pub fn base(&self) -> u32 {
        self.top + LANE
    }

    /// How high a number stands.
    pub fn tall(&self, value: u64) -> f64 {
        f64::from(LANE) * (value.min(self.full) as f64) / self.full as f64
    }
}
