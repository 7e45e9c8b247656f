//! The S field of a far list by itself, which may have any length.

use super::code::Code;
use super::standard::{parameters_in_front, Parameters};

/// The last position that a code can name.
const LAST_POSITION: usize = Code::BASE as usize - 1;

/// What marks the last octet of a block, at level 1 and below it.
const LEVEL_1_MARK: u8 = 0x80;
const LOWER_MARKS: u8 = 0xC0;

/// The parameters of the S field at the front of far octets. There are none
/// at all where a position that no code can name may stand in the octets.
pub fn far_parameters(octets: &[u8]) -> Option<Parameters> {
    let parameters = parameters_in_front(octets)?;
    let reach = level_1_reach(octets).max(lower_reach(octets));
    match reach <= LAST_POSITION {
        true => Some(parameters),
        false => Some(Parameters::new()),
    }
}

/// The farthest position that the two blocks of level 1 have room for.
fn level_1_reach(octets: &[u8]) -> usize {
    let blocks = octets.split_inclusive(|octet| octet & LEVEL_1_MARK != 0);
    let room = blocks.take(2).map(|block| 7 * block.len());
    room.max().unwrap_or(0)
}

/// The farthest position that a block below level 1 may have, wherever in the
/// octets it stands.
fn lower_reach(octets: &[u8]) -> usize {
    let blocks = octets.split_inclusive(|octet| octet & LOWER_MARKS != 0);
    blocks.map(block_reach).max().unwrap_or(0)
}

/// An octet without a mark counts whole, a marked one by what is set in it.
fn block_reach(block: &[u8]) -> usize {
    let of_octet = |octet: &u8| match octet & LOWER_MARKS {
        0 => 6,
        _ => u8::BITS - (octet & !LOWER_MARKS).leading_zeros(),
    };
    block.iter().map(|octet| of_octet(octet) as usize).sum()
}

#[cfg(test)]
mod tests {
    use super::*;
    use crate::wire::written_out;

    /// How many parameters are in a field with a row of empty octets inside.
    fn found(front: &str, empty: usize, end: &str) -> Option<usize> {
        let octets = [written_out(front), vec![0; empty], written_out(end)].concat();
        far_parameters(&octets).map(|parameters| parameters.len())
    }

    #[test]
    fn blocks_of_level_1() {
        assert_eq!(found("", 72, "C0 80"), Some(1));
        assert_eq!(found("01", 71, "80 80"), Some(1));
        assert_eq!(found("01", 72, "80 80"), Some(0));
        assert_eq!(found("", 73, "81 80"), Some(0));
        assert_eq!(found("80 01", 71, "80 C1"), Some(2));
        assert_eq!(found("80 01", 72, "80 C1"), Some(0));
    }

    #[test]
    fn blocks_below_level_1() {
        assert_eq!(found("80 81", 84, "FF"), Some(7));
        assert_eq!(found("80 81", 85, "C0"), Some(1));
        assert_eq!(found("80 81", 85, "C1"), Some(2));
        assert_eq!(found("80 81", 85, "C2"), Some(0));
        assert_eq!(found("80 81", 86, "C0"), Some(0));
        assert_eq!(found("80 81 40", 85, "C0"), Some(1));
        assert_eq!(found("80 81 40", 85, "41 C0"), Some(2));
        assert_eq!(found("80 81 40", 85, "42 C0"), Some(0));
        assert_eq!(found("80 81 40 41", 85, "C1"), Some(3));
        assert_eq!(found("80 81 40 41", 85, "C3"), Some(0));
    }

    #[test]
    fn octets_behind_the_field() {
        assert_eq!(found("80 81 C1", 85, ""), Some(2));
        assert_eq!(found("80 81 C1", 86, ""), Some(0));
        assert_eq!(found("80 81 C1", 85, "81"), Some(2));
        assert_eq!(found("80 81 C1", 85, "84"), Some(0));
    }

    #[test]
    fn what_is_no_field() {
        assert_eq!(found("80 81", 100, ""), None);
        assert_eq!(found("", 100, "80"), None);
    }
}
