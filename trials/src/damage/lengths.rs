//! "20, image to write or read not 4,608 bytes": for every call, an opening too. Files
//! that are too long, or that are not there, leave the buffer.

use super::{all_calls, stations, Trial};
use crate::image::image_of;

const LENGTHS: [usize; 12] =
    [0, 1, 508, 512, 4_096, 4_607, 4_609, 5_120, 8_191, 8_192, 8_193, 9_000];

pub fn trials() -> Vec<Trial> {
    let mut image = image_of(&stations::some());
    image.resize(10_000, 0);
    let of_length = |length: usize| Trial {
        title: format!("{length} bytes"),
        image: image[..length].to_vec(),
        calls: [all_calls(true), no_files(), all_calls(false)].concat(),
    };
    LENGTHS.map(of_length).into()
}

/// Lines about files that cannot be read or written.
fn no_files() -> Vec<Vec<u8>> {
    let folder = std::env::temp_dir().to_string_lossy().into_owned();
    let missing = format!("{folder}/trials-no-such-folder/image");
    let lines = [
        format!("read {missing}"),
        format!("write {missing}"),
        format!("read {folder}"),
        format!("write {folder}"),
        "read".to_string(),
        "write".to_string(),
        "read ".to_string(),
        "write a b".to_string(),
    ];
    lines.map(String::into_bytes).into()
}
