//! "nine blocks of 512 bytes: 508 bytes, then a 32-bit check, the sum of (place + 1) ×
//! byte, places from 0".

use super::records::{number, push_number};

pub const BLOCKS: usize = 9;
pub const BLOCK: usize = 512;
/// A block without its check.
pub const CONTENT: usize = 508;

/// What each block holds before its check.
pub type Contents = Vec<Vec<u8>>;

/// "All else is zero."
pub fn filled_up(mut contents: Contents) -> Contents {
    for content in &mut contents {
        assert!(content.len() <= CONTENT, "no more than a block holds");
        content.resize(CONTENT, 0);
    }
    contents
}

/// From the last byte to the first: what was summed up so far is added once more for each
/// byte before it, so that a byte counts as often as its place and one.
pub fn check(content: &[u8]) -> u32 {
    let (mut sum, mut so_far) = (0, 0);
    for byte in content.iter().rev() {
        so_far += u32::from(*byte);
        sum += so_far;
    }
    sum
}

pub fn sealed(contents: &Contents) -> Vec<u8> {
    let mut image = Vec::with_capacity(BLOCKS * BLOCK);
    for content in contents {
        image.extend_from_slice(content);
        push_number(&mut image, check(content).into(), BLOCK - CONTENT);
    }
    image
}

/// "any one changed byte in a block is found"
pub fn checks_are_right(image: &[u8]) -> bool {
    image.chunks(BLOCK).all(|block| {
        let (content, written) = block.split_at(CONTENT);
        number(written) == u64::from(check(content))
    })
}

/// "how many blocks differ" (N9), checks included.
pub fn differing(one: &[u8], other: &[u8]) -> u32 {
    let pairs = one.chunks(BLOCK).zip(other.chunks(BLOCK));
    pairs.filter(|(one, other)| one != other).count() as u32
}

pub fn contents(image: &[u8]) -> Contents {
    image.chunks(BLOCK).map(|block| block[..CONTENT].to_vec()).collect()
}

#[cfg(test)]
mod tests {
    use super::*;

    #[test]
    fn a_byte_counts_as_often_as_its_place_and_one() {
        assert_eq!(check(&[]), 0);
        assert_eq!(check(&[7]), 7);
        assert_eq!(check(&[3, 5, 7]), 3 + 2 * 5 + 3 * 7);
        assert_eq!(check(&[255; CONTENT]), 32_967_930);
    }
}
