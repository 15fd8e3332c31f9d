//! What the wall is given: images of stations with every number of charges that matters,
//! damaged ones, inputs that are too short or too long, and all of them in several ways.

use super::stations;
use crate::damage::{self, Trial};
use crate::feed::Way;
use crate::image::blocks::{sealed, Contents, CONTENT};
use crate::image::{contents_of, image_of, BYTES};
use crate::random::Random;
use crate::reference::{Charge, Station};

pub struct Input {
    pub title: String,
    pub bytes: Vec<u8>,
    pub way: Way,
}

fn input(title: impl Into<String>, bytes: Vec<u8>, way: Way) -> Input {
    Input { title: title.into(), bytes, way }
}

/// Those that are always tried.
pub fn named() -> Vec<Input> {
    let mut inputs = lengths();
    inputs.extend(ways());
    inputs.extend(numbers_of_charges());
    inputs.extend(single());
    inputs.extend(out_of_order());
    inputs
}

fn some_image() -> Vec<u8> {
    image_of(&stations::crowd(&mut Random::new(3), 30))
}

const LENGTHS: [usize; 16] = [
    0, 1, 37, 508, 512, 4_096, 4_607, 4_609, 4_610, 5_120, 8_192, 9_216, 65_535, 65_536, 65_537,
    1_000_000,
];

/// "image to write or read not 4,608 bytes": images that are cut, and images with zeros or
/// themselves behind them.
fn lengths() -> Vec<Input> {
    let mut inputs = Vec::new();
    for length in LENGTHS {
        let mut zeros = some_image();
        zeros.resize(length, 0);
        let again = some_image().into_iter().cycle().take(length).collect();
        inputs.push(input(format!("{length} bytes, zeros behind an image"), zeros, Way::Pipe));
        inputs.push(input(format!("{length} bytes, images in a row"), again, Way::File));
    }
    inputs
}

/// The same bytes in pieces: an image that comes slowly is whole, and one byte more that comes
/// late is still one too many.
fn ways() -> Vec<Input> {
    let whole = some_image();
    let longer = [whole.clone(), vec![0]].concat();
    let shorter = whole[..BYTES - 1].to_vec();
    let pieces = |sizes: &[usize]| Way::Pieces(sizes.to_vec());
    vec![
        input("an image from a file", whole.clone(), Way::File),
        input("an image byte by byte", whole.clone(), pieces(&[1])),
        input("an image in blocks", whole.clone(), pieces(&[512])),
        input("an image and its last byte", whole.clone(), pieces(&[BYTES - 1, 1])),
        input("a byte and the rest of an image", whole, pieces(&[1, BYTES - 1])),
        input("an image and then one byte", longer.clone(), pieces(&[BYTES, 1])),
        input("an image and one byte, in blocks", longer, pieces(&[512])),
        input("an image without its last byte, in blocks", shorter, pieces(&[512])),
    ]
}

const NUMBERS: [usize; 19] =
    [0, 1, 2, 12, 23, 24, 25, 47, 48, 49, 71, 72, 73, 96, 120, 144, 168, 179, 180];

fn numbers_of_charges() -> impl Iterator<Item = Input> {
    NUMBERS.into_iter().map(|held| {
        let station = stations::crowd(&mut Random::new(held as u64), held);
        input(format!("{held} charges"), image_of(&station), Way::Pipe)
    })
}

/// One charge and the clock at each of its edges, the largest numbers, and no station at all.
fn single() -> Vec<Input> {
    let edges = [0, 1, 2, 6, 7, 8, 11];
    let edge = |clock: u64| {
        let mut station = stations::wide(5, clock, 2);
        let (ticket, feeder, line, order, rate, tail) = (1, 1, 2, 0, 1, 5);
        let (start, time, due) = (1, 6, 9);
        let charge = Charge { ticket, feeder, line, order, time, due, rate, start, tail };
        station.charges.push(charge);
        input(format!("a charge from 1 to 7, clock {clock}"), image_of(&station), Way::Pipe)
    };
    let mut inputs: Vec<Input> = edges.into_iter().map(edge).collect();
    let largest = image_of(&stations::largest());
    inputs.push(input("the largest numbers", largest, Way::Pipe));
    inputs.push(input("zeros", vec![0; BYTES], Way::Pipe));
    inputs.push(input("bytes of 255", vec![255; BYTES], Way::Pipe));
    inputs
}

/// One number of the station or of its tenth charge out of range.
const SPOILT: [(&str, fn(&mut Station)); 19] = [
    ("no limit", |station| station.feeders[0].limit = 0),
    ("a limit of 61", |station| station.feeders[0].limit = 61),
    ("no bound", |station| station.feeders[0].percent = 0),
    ("a percentage of 101", |station| station.feeders[0].percent = 101),
    ("a tail of 6", |station| station.feeders[0].tail = 6),
    ("a late clock", |station| station.clock = 1_000_001),
    ("no site limit", |station| station.site_limit = 0),
    ("a site limit of 721", |station| station.site_limit = 721),
    ("a site limit of 179", |station| station.site_limit = 179),
    ("no next ticket", |station| station.next_ticket = 0),
    ("a next ticket that is held", |station| station.next_ticket -= 1),
    ("181 charges", |station| {
        let mut charge = station.charges[179];
        charge.ticket += 1;
        station.next_ticket += 1;
        station.charges.push(charge);
    }),
    ("equal tickets", |station| station.charges[9].ticket = station.charges[8].ticket),
    ("ticket 0", |station| station.charges[0].ticket = 0),
    ("no time", |station| station.charges[9].time = 0),
    ("line 0", |station| station.charges[9].line = 0),
    ("line 4", |station| station.charges[9].line = 4),
    ("rate 3", |station| station.charges[9].rate = 3),
    ("a line too many", |station| station.charges[9].line = station.charges[10].line),
];

/// Images with right checks and contents that are refused.
fn out_of_order() -> Vec<Input> {
    let full = || {
        let mut station = stations::wide(0, 0, 181);
        for ticket in 1..=180 {
            let line = ticket % 3 + 1;
            let (feeder, order, time, due, rate, start, tail) = (1, 0, 5, 9, 1, 0, 0);
            let charge = Charge { ticket, feeder, line, order, time, due, rate, start, tail };
            station.charges.push(charge);
        }
        station
    };
    let spoilt = |(title, spoil): (&str, fn(&mut Station))| {
        let mut station = full();
        spoil(&mut station);
        input(format!("180 charges, {title}"), image_of(&station), Way::Pipe)
    };
    let mut inputs: Vec<Input> = SPOILT.into_iter().map(spoilt).collect();
    inputs.push(input("180 charges at once", image_of(&full()), Way::Pipe));
    let mut contents: Contents = contents_of(&full());
    contents[0][CONTENT - 1] = 1;
    inputs.push(input("180 charges, a byte where all is zero", sealed(&contents), Way::Pipe));
    inputs
}

/// Kinds whose stations are small, one with site limits that bind, and one that fills them.
const KINDS: [&str; 8] =
    ["mixed", "tails", "rates", "leaning", "withdraw", "hurry", "narrow", "full"];

/// Those that are drawn by lot: of stations that calls give, of others, and damaged ones.
pub fn drawn(seed: u64, number: u64) -> Input {
    let mut random = Random::of_script(seed, number);
    let station = match random.percent(40) {
        true => {
            let kind = random.pick(&KINDS);
            stations::of_script(kind, seed, number, random.between(20, 100))
        }
        false => {
            let any = random.below(181);
            let held = random.pick(&[0, 1, 23, 24, 25, 48, 49, 72, 180, any, any, any]);
            stations::crowd(&mut random, held as usize)
        }
    };
    let mut bytes = image_of(&station);
    let mut damage = "";
    if random.percent(15) {
        let place = random.below(BYTES as u64) as usize;
        bytes[place] ^= random.between(1, 255) as u8;
        damage = ", damaged";
    }
    input(format!("image {number} of seed {seed}{damage}"), bytes, Way::Pipe)
}

/// Images that a bus is tried with, some of each sort.
pub fn of_a_bus(seed: u64) -> impl Iterator<Item = Input> {
    let each = |(number, trial): (usize, Trial)| {
        input(format!("{number}: {}", trial.title), trial.image, Way::Pipe)
    };
    damage::trials(seed, 1).enumerate().step_by(17).map(each)
}

#[cfg(test)]
mod tests {
    use super::*;
    use crate::image::restore;

    /// Accepted and refused ones: of those with a name each as its name says.
    #[test]
    fn refused_by_their_names() {
        let refused = |part: &str| {
            let inputs: Vec<Input> =
                named().into_iter().filter(|input| input.title.contains(part)).collect();
            assert!(!inputs.is_empty(), "{part}");
            inputs.into_iter().map(|input| restore(&input.bytes).err()).collect::<Vec<_>>()
        };
        assert!(refused(" bytes, ").iter().all(|refusal| *refusal == Some(20)));
        assert!(refused("180 charges, ").iter().all(|refusal| *refusal == Some(22)));
        assert!(refused("180 charges at once").iter().all(Option::is_none));
        assert!(refused("zeros").contains(&Some(22)) && refused("255").contains(&Some(21)));
        assert!(refused("a charge from").iter().all(Option::is_none));
        assert!(refused("the largest").iter().all(Option::is_none));
    }

    #[test]
    fn titles_are_names() {
        let titles: std::collections::HashSet<String> =
            named().into_iter().map(|input| input.title).collect();
        assert_eq!(titles.len(), named().len());
    }

    #[test]
    fn drawn_ones_are_accepted_mostly() {
        let accepted = (0..200).filter(|number| restore(&drawn(1, *number).bytes).is_ok()).count();
        assert!((150..190).contains(&accepted), "{accepted}");
    }

    /// N14: among as many as are tried where no number is asked for, some have a W that calls
    /// have filled.
    #[test]
    fn site_limits_bind() {
        let stations = (0..1_000).filter_map(|number| restore(&drawn(1, number).bytes).ok());
        let narrow: Vec<Station> = stations.filter(|station| station.site_limit < 720).collect();
        let full = |station: &&Station| station.rules(1).site_full(&station.charges, station.clock);
        let binding = narrow.iter().filter(full).count();
        assert!(binding >= 20, "{binding} of {}", narrow.len());
    }
}
