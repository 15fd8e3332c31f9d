//! "Block 0 holds, in 32 bits each, N, c, r, clock, next ticket and number held", and "gains
//! W (32 bits) last" (N14). A record
//! holds "ticket, start, d, order minute (32 bits each), p (16), line (8), rate (8)".
//! "Multi-byte numbers are little-endian."

use crate::reference::{bound, Charge, Feeder, Station};

/// Bytes of a record.
pub const RECORD: usize = 20;
/// Records that the blocks have room for, used or not.
pub const RECORDS: usize = 200;
/// Bytes of each number of a record.
const WIDTHS: [usize; 7] = [4, 4, 4, 4, 2, 1, 1];
/// The bound is looked for among all numbers up to the limit; not where these are billions,
/// since such a limit is out of range anyway.
const LARGEST_LIMIT: u64 = 1_000;

/// Appends so many bytes, the lowest first.
pub fn push_number(bytes: &mut Vec<u8>, number: u64, width: usize) {
    bytes.extend_from_slice(&number.to_le_bytes()[..width]);
}

/// The number that bytes stand for: the highest comes last.
pub fn number(bytes: &[u8]) -> u64 {
    bytes.iter().rev().fold(0, |number, byte| 256 * number + u64::from(*byte))
}

pub fn header(station: &Station) -> Vec<u8> {
    let Station { site_limit, feeders, clock, next_ticket, charges } = station;
    let Feeder { limit, percent, tail, .. } = feeders[0];
    let (next, held) = (u64::from(*next_ticket), charges.len() as u64);
    let mut bytes = Vec::new();
    for number in [limit, percent, tail, *clock, next, held, *site_limit] {
        push_number(&mut bytes, number, 4);
    }
    bytes
}

pub fn push_record(bytes: &mut Vec<u8>, charge: &Charge) {
    let Charge { ticket, line, order, time, due, rate, start, .. } = *charge;
    let numbers = [ticket.into(), start, due, order, time, line.into(), rate.into()];
    for (number, width) in numbers.into_iter().zip(WIDTHS) {
        push_number(bytes, number, width);
    }
}

/// The records of the charges in ticket order, and those that are not used.
pub fn row(station: &Station) -> Vec<u8> {
    let mut row = Vec::with_capacity(RECORDS * RECORD);
    station.charges.iter().for_each(|charge| push_record(&mut row, charge));
    row.resize(RECORDS * RECORD, 0);
    row
}

/// The station that a header and its records speak of.
pub fn station(header: &[u8], row: &[u8]) -> Station {
    let numbers: Vec<u64> = header.chunks(4).take(7).map(number).collect();
    let [limit, percent, tail, clock, next, held, site_limit] = numbers[..] else {
        unreachable!("seven numbers")
    };
    let bound = if limit <= LARGEST_LIMIT { bound(limit, percent) } else { 0 };
    let records = row.chunks(RECORD).take(held as usize);
    let charges = records.map(|record| charge(record, tail)).collect();
    let feeders = vec![Feeder { limit, percent, bound, tail }];
    Station { site_limit, feeders, clock, next_ticket: next as u32, charges }
}

fn charge(record: &[u8], tail: u64) -> Charge {
    let mut rest = record;
    let [ticket, start, due, order, time, line, rate] = WIDTHS.map(|width| {
        let (bytes, more) = rest.split_at(width);
        rest = more;
        number(bytes)
    });
    let (ticket, line, rate) = (ticket as u32, line as u32, rate as u32);
    Charge { ticket, feeder: 1, line, order, time, due, rate, start, tail }
}

#[cfg(test)]
mod tests {
    use super::*;

    #[test]
    fn the_lowest_byte_comes_first() {
        let mut bytes = vec![9];
        push_number(&mut bytes, 0x0102_0304, 4);
        assert_eq!(bytes, [9, 4, 3, 2, 1]);
        assert_eq!(number(&[4, 3, 2, 1]), 0x0102_0304);
    }

    #[test]
    fn the_header_has_the_site_limit_last() {
        let feeder = Feeder::new(20, 40, 3);
        let station = Station { clock: 0x0102, ..Station::of(0x0203, vec![feeder]) };
        let mut bytes = vec![20, 0, 0, 0, 40, 0, 0, 0, 3, 0, 0, 0, 2, 1, 0, 0, 1, 0, 0, 0];
        bytes.extend([0, 0, 0, 0, 3, 2, 0, 0]);
        assert_eq!(header(&station), bytes);
        assert_eq!(super::station(&bytes, &[]), station);
    }

    #[test]
    fn a_record_has_its_numbers_in_the_order_of_the_request() {
        let charge = Charge {
            ticket: 0x0a0b,
            feeder: 1,
            start: 0x010203,
            due: 0x1112,
            order: 0x05,
            time: 0x0304,
            line: 2,
            rate: 1,
            tail: 0,
        };
        let bytes = [0x0b, 0x0a, 0, 0, 3, 2, 1, 0, 0x12, 0x11, 0, 0, 5, 0, 0, 0, 4, 3, 2, 1];
        let mut record = Vec::new();
        push_record(&mut record, &charge);
        assert_eq!(record, bytes);
        assert_eq!(super::charge(&bytes, 0), charge);
    }
}
