//! Save and restore (N8, N9) for speed: the bytes go straight between the image and the
//! station, each once, and the plan is sound if its profile is. An image is that of a site of
//! one feeder (N14).

use super::profile::Rules;
use super::station::{
    bound, Charge, Feeder, Station, LAST_CLOCK, LAST_TICKET, PLACES, WIDEST_SITE,
};
use crate::bus::images::Images;
use crate::image::blocks::differing;
use crate::image::{refuse_size, CHECK, CONTENTS};
use crate::yard::Refusal;

const BLOCK: usize = 512;
const CONTENT: usize = 508;
const RECORD: usize = 20;
const RECORDS: usize = 200;
const HEADER: usize = 28;

/// The fast program's images.
#[derive(Clone, Copy)]
pub struct Fast;

impl Images for Fast {
    type Yard = Station;

    fn fresh(&self) -> Station {
        Station::fresh(1, 100, 0)
    }

    fn restore(&self, image: &[u8]) -> Result<Station, Refusal> {
        refuse_size(image)?;
        let right = |block: &[u8]| number(block, CONTENT) == check(&block[..CONTENT]);
        match image.chunks_exact(BLOCK).all(right) {
            true => station_in(image).ok_or(CONTENTS),
            false => Err(CHECK),
        }
    }

    fn save(&self, yard: &Station, previous: &[u8], image: &mut [u8]) -> Result<u32, Refusal> {
        refuse_size(previous)?;
        refuse_size(image)?;
        let [feeder] = yard.feeders.as_slice() else { return Err(CONTENTS) };
        write(yard, feeder, image);
        Ok(differing(previous, image))
    }
}

fn check(content: &[u8]) -> u32 {
    content.iter().zip(1..).map(|(byte, weight)| u32::from(*byte) * weight).sum()
}

fn number(bytes: &[u8], at: usize) -> u32 {
    u32::from_le_bytes([bytes[at], bytes[at + 1], bytes[at + 2], bytes[at + 3]])
}

/// Where byte `byte` of record `place` lies (N9).
fn position(place: usize, byte: usize) -> usize {
    let number = RECORDS * byte + place;
    BLOCK * (1 + number / CONTENT) + number % CONTENT
}

fn record(image: &[u8], place: usize) -> [u8; RECORD] {
    let mut record = [0; RECORD];
    for (byte, value) in record.iter_mut().enumerate() {
        *value = image[position(place, byte)];
    }
    record
}

fn put_record(image: &mut [u8], place: usize, record: &[u8; RECORD]) {
    for (byte, value) in record.iter().enumerate() {
        image[position(place, byte)] = *value;
    }
}

/// Behind the header, and behind the last record's last byte.
fn spare_is_zero(image: &[u8]) -> bool {
    let last = position(RECORDS - 1, RECORD - 1);
    let (first, behind) = (&image[HEADER..CONTENT], &image[last + 1..image.len() - 4]);
    first.iter().chain(behind).all(|byte| *byte == 0)
}

fn station_in(image: &[u8]) -> Option<Station> {
    let mut header = [0; 7];
    header.iter_mut().enumerate().for_each(|(place, value)| *value = number(image, 4 * place));
    let [limit, percent, tail, clock, next_ticket, held, site] = header;
    let held = held as usize;
    let ranged = (1..=60).contains(&limit)
        && percent <= 100
        && tail <= 5
        && clock <= LAST_CLOCK
        && (1..=LAST_TICKET + 1).contains(&next_ticket)
        && held <= PLACES
        && (1..=WIDEST_SITE).contains(&site);
    if !ranged || bound(limit, percent) == 0 || !spare_is_zero(image) {
        return None;
    }
    let mut feeder = Feeder::new(limit, percent, tail, site);
    let mut ticket = 0;
    for place in 0..held {
        let charge = charge(&record(image, place), &feeder, clock, next_ticket)?;
        if charge.ticket <= ticket {
            return None;
        }
        ticket = charge.ticket;
        feeder.charges.push(charge);
    }
    let unused = (held..RECORDS).all(|place| record(image, place) == [0; RECORD]);
    let rules = feeder.rules;
    let station = Station { clock, next_ticket, feeders: vec![feeder] };
    let profile = station.profile(0, station.feeders[0].charges.iter());
    let sound = profile.is_sound(rules) && profile.within_site(rules);
    (ticket < next_ticket && unused && sound).then_some(station)
}

fn charge(record: &[u8; RECORD], feeder: &Feeder, clock: u32, next_ticket: u32) -> Option<Charge> {
    let Feeder { rules: Rules { limit, bound, site }, tail, .. } = *feeder;
    let [ticket, start, due, order] = [0, 4, 8, 12].map(|at| number(record, at));
    let time = u32::from(u16::from_le_bytes([record[16], record[17]]));
    let (line, rate) = (record[18], u16::from(record[19]));
    let end = u64::from(start) + u64::from(time);
    let ceiling = u64::from(clock) + 1_445 * u64::from(next_ticket - 1);
    let right = (1..=1_440).contains(&time)
        && due <= 2_000_000
        && (1..=3).contains(&line)
        && (1..=2).contains(&rate)
        && rate <= limit.min(bound).min(site)
        && end <= ceiling
        && end + u64::from(tail) > u64::from(clock)
        && order <= start
        && order <= clock;
    right.then_some(Charge { ticket, line: line as usize - 1, order, time, due, rate, start })
}

fn write(station: &Station, feeder: &Feeder, image: &mut [u8]) {
    image.fill(0);
    let Station { clock, next_ticket, .. } = station;
    let Feeder { rules: Rules { limit, site, .. }, percent, tail, charges } = feeder;
    let (limit, held, site) = (u32::from(*limit), charges.len() as u32, u32::from(*site));
    let header = [limit, *percent, *tail, *clock, *next_ticket, held, site];
    for (bytes, value) in image.chunks_exact_mut(4).zip(header) {
        bytes.copy_from_slice(&value.to_le_bytes());
    }
    for (place, charge) in charges.iter().enumerate() {
        put_record(image, place, &record_of(charge));
    }
    for block in image.chunks_exact_mut(BLOCK) {
        let check = check(&block[..CONTENT]);
        block[CONTENT..].copy_from_slice(&check.to_le_bytes());
    }
}

fn record_of(charge: &Charge) -> [u8; RECORD] {
    let Charge { ticket, line, order, time, due, rate, start } = *charge;
    let mut record = [0; RECORD];
    for (bytes, value) in record.chunks_exact_mut(4).zip([ticket, start, due, order]) {
        bytes.copy_from_slice(&value.to_le_bytes());
    }
    record[16..18].copy_from_slice(&(time as u16).to_le_bytes());
    (record[18], record[19]) = (line as u8 + 1, rate as u8);
    record
}
