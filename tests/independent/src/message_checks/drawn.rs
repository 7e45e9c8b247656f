//! Messages drawn at random, with trees of one to three levels and NS.

use super::layout::{ones, Block, Field, Layout, Par2, LEVEL_1, LOWER, NON_STANDARD_BIT};
use super::requests::MOST_OCTETS;
use crate::random::Random;

impl Par2 {
    fn drawn(random: &mut Random, depth: usize) -> Par2 {
        let npars = any_block(random, LOWER);
        let spars = if depth < 3 || random.bit() {
            Vec::new()
        } else {
            sparse_block(random, LOWER)
        };
        let below = (0..ones(&spars)).map(|_| any_block(random, LOWER));
        Par2 {
            npars,
            below: below.collect(),
            spars,
        }
    }
}

impl Field {
    fn drawn(random: &mut Random, depth: usize) -> Field {
        let npars = any_block(random, LEVEL_1);
        let spars = if depth < 2 {
            vec![0; random.pick(&[1, 1, 2, 3])]
        } else {
            sparse_block(random, LEVEL_1)
        };
        let below = (0..ones(&spars)).map(|_| Par2::drawn(random, depth));
        Field {
            npars,
            below: below.collect(),
            spars,
        }
    }
}

impl Layout {
    /// A message with trees of up to so many levels and no NS, of any length.
    fn of_any_length(random: &mut Random, depth: usize) -> Layout {
        let mut identification = Field::drawn(random, depth);
        identification.npars[0] &= !NON_STANDARD_BIT;
        let standard = Field::drawn(random, depth);
        Layout::of_fields(random, identification, standard)
    }

    /// A message with trees of up to so many levels, without NS and within so
    /// many octets.
    pub fn within(random: &mut Random, depth: usize, length: usize) -> Layout {
        loop {
            let layout = Layout::of_any_length(random, depth);
            if layout.length() <= length {
                return layout;
            }
        }
    }

    /// Any message, with or without NS.
    pub fn any(random: &mut Random) -> Layout {
        let depth = random.pick(&[1, 2, 2, 3, 3, 3]);
        let layout = Layout::within(random, depth, MOST_OCTETS);
        layout.perhaps_announcing(random)
    }

    /// The message with NS in one of three cases, if there is room for it.
    pub fn perhaps_announcing(self, random: &mut Random) -> Layout {
        let left = MOST_OCTETS - self.length();
        if left < 3 || random.below(3) > 0 {
            return self;
        }
        let length = random.within(3, left);
        self.announcing(non_standard_field(random, length))
    }
}

/// A block of one or a few octets, empty ones at its end too.
fn any_block(random: &mut Random, bits: usize) -> Block {
    let all = (1 << bits) - 1;
    let length = random.pick(&[1, 1, 1, 1, 2, 2, 3, 6]);
    let octet = |_| match random.below(6) {
        0 | 1 => 0,
        2 => all,
        3 => 1 << random.below(bits),
        _ => random.octet() & all,
    };
    (0..length).map(octet).collect()
}

/// A block of SPars, few of them or none set.
fn sparse_block(random: &mut Random, bits: usize) -> Block {
    let all = (1 << bits) - 1;
    let length = random.pick(&[1, 1, 1, 2, 3]);
    let octet = |_| match random.below(12) {
        0..=4 => 0,
        5..=8 => 1 << random.below(bits),
        9 | 10 => 1 << random.below(bits) | 1 << random.below(bits),
        _ => random.octet() & all,
    };
    (0..length).map(octet).collect()
}

/// A well-formed NS of so many octets, 3 at least, in one or more blocks.
pub fn non_standard_field(random: &mut Random, length: usize) -> Vec<u8> {
    let mut field = Vec::new();
    while field.len() < length {
        let left = length - field.len();
        let more_blocks = left > 64 || left >= 6 && random.bit();
        let block = if more_blocks {
            random.within(3, 64.min(left - 3))
        } else {
            left
        };
        field.push(block as u8 - 1);
        field.extend(random.octets(block - 1));
    }
    field
}

#[cfg(test)]
mod tests {
    use super::*;
    use crate::message::{self, Reading};

    #[test]
    fn the_reader_finds_what_was_laid_out() {
        let mut random = Random::named("laid out");
        for _ in 0..3000 {
            let layout = Layout::any(&mut random);
            let due = Reading::success(layout.length(), &layout.meaning(), 448);
            assert_eq!(message::read(448, &layout.octets()), due);
        }
    }

    #[test]
    fn trimmed_is_minimal() {
        let mut random = Random::named("trimmed");
        for _ in 0..3000 {
            let layout = Layout::any(&mut random);
            let trimmed = layout.trimmed().octets();
            assert_eq!(message::minimal_form(&layout.octets()), Some(trimmed));
        }
    }

    #[test]
    fn non_standard_fields_have_their_length() {
        let mut random = Random::named("lengths");
        for length in 3..=255 {
            let field = non_standard_field(&mut random, length);
            assert_eq!(field.len(), length);
            let mut rest = &field[..];
            while let Some((&octets, behind)) = rest.split_first() {
                assert!((2..=63).contains(&octets));
                rest = &behind[usize::from(octets)..];
            }
        }
    }
}
