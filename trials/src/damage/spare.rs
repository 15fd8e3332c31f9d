//! "All else is zero": each spare byte of block 0 and of the others, and each byte of
//! records that are not used, with the check made right.

use super::{stations, Trial, CALLS, REFUSED};
use crate::image::contents_of;
use crate::random::Random;
use crate::reference::Station;

fn each(title: &'static str, station: Station) -> impl Iterator<Item = Trial> {
    let contents = contents_of(&station);
    let zeros: Vec<(usize, usize)> = (0..contents.len())
        .flat_map(|block| (0..contents[block].len()).map(move |place| (block, place)))
        .filter(|(block, place)| contents[*block][*place] == 0)
        .collect();
    let mut random = Random::new(6);
    zeros.into_iter().map(move |(block, place)| {
        let value = random.pick(&[1, 2, 128, 255]);
        let image = stations::resealed(contents.clone(), |contents| contents[block][place] = value);
        let calls = [random.pick(&CALLS), random.pick(&REFUSED)];
        Trial {
            title: format!("{title}: {value} at place {place} of block {block}"),
            image,
            calls: calls.map(|call| call.as_bytes().to_vec()).into(),
        }
    })
}

/// The second has its first and last records used, so that few zeros are of records. What
/// is no spare byte there becomes a field with another value, in order or not.
pub fn trials() -> impl Iterator<Item = Trial> {
    let full = stations::of_script("full", 5, 1, 60);
    each("a fresh station", Station::fresh(20, 40, 3)).chain(each("a full one", full))
}
