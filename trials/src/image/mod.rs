//! Images of a station (N8), written from the request's sentences: the records are made as
//! one row of bytes, the row is laid into blocks, and each block gets its check. Reading goes
//! the way back and ends with a comparison: "Restore accepts exactly the images of
//! stations" in order, so what is read has to save to the very bytes that were lent.
//!
//! - `blocks`: nine blocks and their checks
//! - `records`: numbers as bytes, header and charges as bytes
//! - `arrangement`: where the bytes of the records lie
//! - `rules`: when a station is in order
//!
//! "Save, restore and the bus serve a site of one feeder" (N14).

pub mod arrangement;
pub mod blocks;
pub mod records;
pub mod rules;

use crate::reference::Station;
use crate::yard::Refusal;
use blocks::Contents;

/// "nine blocks of 512 bytes"
pub const BYTES: usize = 4_608;

/// "20, image to write or read not 4,608 bytes; 21, a block's check; 22, contents"
pub const SIZE: Refusal = 20;
pub const CHECK: Refusal = 21;
pub const CONTENTS: Refusal = 22;

pub fn refuse_size(image: &[u8]) -> Result<(), Refusal> {
    match image.len() {
        BYTES => Ok(()),
        _ => Err(SIZE),
    }
}

/// "Save writes a station as nine blocks of 512 bytes"; it "is lent the previous image,
/// refusal 20 covering its size, and answers how many blocks differ" (N9). "22 covers [..]
/// saving several feeders" (N14).
pub fn save(station: &Station, previous: &[u8], image: &mut [u8]) -> Result<u32, Refusal> {
    refuse_size(previous)?;
    refuse_size(image)?;
    if station.feeders.len() != 1 {
        return Err(CONTENTS);
    }
    image.copy_from_slice(&image_of(station));
    Ok(blocks::differing(previous, image))
}

/// The image of any station of one feeder that the fields can hold, in order or not.
pub fn image_of(station: &Station) -> Vec<u8> {
    blocks::sealed(&contents_of(station))
}

pub fn contents_of(station: &Station) -> Contents {
    let mut contents = vec![records::header(station)];
    contents.extend(arrangement::laid_out(&records::row(station)));
    blocks::filled_up(contents)
}

/// The refusals in their order, and a station in order.
pub fn restore(image: &[u8]) -> Result<Station, Refusal> {
    refuse_size(image)?;
    if !blocks::checks_are_right(image) {
        return Err(CHECK);
    }
    let contents = blocks::contents(image);
    let station = station_in(&contents);
    match rules::broken(&station).is_empty() && contents_of(&station) == contents {
        true => Ok(station),
        false => Err(CONTENTS),
    }
}

/// What the fields say, whatever that is.
pub fn station_in(contents: &Contents) -> Station {
    records::station(&contents[0], &arrangement::taken_up(&contents[1..]))
}

/// "Beside a refused restore stands the fresh station of 1, 100 and r = 0", with "one feeder
/// and W 720" (N14).
pub fn restored(image: &[u8]) -> (Option<Refusal>, Station) {
    match restore(image) {
        Ok(station) => (None, station),
        Err(refusal) => (Some(refusal), Station::fresh(1, 100, 0)),
    }
}
