//! "Byte j (0 to 19) of record q (0 to 199, unused ones zero) gets the number z = 200 × j +
//! q; it goes to block 1 + z / 508 rounded down, at place z modulo 508" (N9): the records
//! stand in columns, all first bytes before all second ones, and the columns fill one block
//! after the other.

use super::blocks::CONTENT;
use super::records::{RECORD, RECORDS};

/// What blocks 1 to 8 hold of the row of records, without the zeros behind it.
pub fn laid_out(row: &[u8]) -> Vec<Vec<u8>> {
    let mut columns = Vec::with_capacity(row.len());
    for byte in 0..RECORD {
        columns.extend(row.chunks(RECORD).map(|record| record[byte]));
    }
    columns.chunks(CONTENT).map(<[u8]>::to_vec).collect()
}

/// The row of records that blocks 1 to 8 hold: "Restore undoes it exactly".
pub fn taken_up(blocks: &[Vec<u8>]) -> Vec<u8> {
    let columns = blocks.concat();
    let mut row = Vec::with_capacity(RECORDS * RECORD);
    for place in 0..RECORDS {
        row.extend(columns.chunks(RECORDS).take(RECORD).map(|column| column[place]));
    }
    row
}

#[cfg(test)]
mod tests {
    use super::*;
    use crate::image::blocks::filled_up;
    use crate::random::Random;

    /// The request's numbers, byte by byte.
    #[test]
    fn every_byte_goes_where_its_number_says() {
        let mut random = Random::new(8);
        let row: Vec<u8> = (0..RECORDS * RECORD).map(|_| random.below(256) as u8).collect();
        let blocks = laid_out(&row);
        assert_eq!(blocks.len(), 8);
        for q in 0..200 {
            for j in 0..20 {
                let z = 200 * j + q;
                assert_eq!(blocks[z / 508][z % 508], row[20 * q + j], "{q} {j}");
            }
        }
        assert_eq!(taken_up(&filled_up(blocks)), row);
    }
}
