//! "any one changed byte in a block is found": every byte of some images, every other value
//! in some places.

use super::{stations, Trial, CALLS, REFUSED};
use crate::image::blocks::{BLOCK, BLOCKS, CONTENT};
use crate::image::image_of;
use crate::random::Random;
use crate::reference::Station;

fn trial(image: &[u8], place: usize, value: u8, random: &mut Random) -> Trial {
    let mut changed = image.to_vec();
    changed[place] = value;
    let calls = [random.pick(&CALLS), random.pick(&REFUSED)];
    Trial {
        title: format!("byte {place} changed from {} to {value}", image[place]),
        image: changed,
        calls: calls.map(|call| call.as_bytes().to_vec()).into(),
    }
}

/// Every byte, with one other value.
fn every_byte(image: Vec<u8>, seed: u64) -> impl Iterator<Item = Trial> {
    let mut random = Random::new(seed);
    (0..image.len()).map(move |place| {
        let by = random.between(1, 255) as u8;
        trial(&image, place, image[place] ^ by, &mut random)
    })
}

/// Every other value of the first and the last byte of what a block holds, and of the
/// lowest of its check.
fn every_value(image: Vec<u8>) -> impl Iterator<Item = Trial> {
    let mut random = Random::new(9);
    let places =
        (0..BLOCKS).flat_map(|block| [0, CONTENT - 1, CONTENT].map(|at| block * BLOCK + at));
    let changes: Vec<(usize, u8)> =
        places.flat_map(|place| (1..=255).map(move |by| (place, by))).collect();
    changes
        .into_iter()
        .step_by(7)
        .map(move |(place, by)| trial(&image, place, image[place] ^ by, &mut random))
}

/// An opening compares with the image as it was lent, whatever that is: here all that
/// differs is a check.
fn openings_over_checks() -> impl Iterator<Item = Trial> {
    let image = image_of(&Station::fresh(2, 50, 0));
    let checks = (0..BLOCKS).flat_map(|block| (CONTENT..BLOCK).map(move |at| block * BLOCK + at));
    checks.map(move |place| {
        let mut changed = image.clone();
        changed[place] ^= 64;
        let calls = ["open 1 720 2 50 0", "open 1 720 2 50 0", "open 1 720 61 50 0"];
        Trial {
            title: format!("an opening over an image with byte {place} changed"),
            image: changed,
            calls: calls.map(|call| call.as_bytes().to_vec()).into(),
        }
    })
}

pub fn trials() -> impl Iterator<Item = Trial> {
    let full = image_of(&stations::of_script("full", 5, 1, 60));
    let images = [image_of(&stations::some()), full.clone(), vec![0; BLOCKS * BLOCK]];
    let every = images.into_iter().zip(1..).flat_map(|(image, seed)| every_byte(image, seed));
    openings_over_checks().chain(every).chain(every_value(full))
}
