//! The trees of clause 8.2, taken from octets, grown from codes and written
//! in minimal form.

use super::code::Code;
use std::collections::{BTreeMap, BTreeSet};
use std::iter;

/// How a level uses the bits of its octets: the lowest ones for parameters,
/// one higher bit to mark the last octet of a block.
struct Level {
    parameters: u32,
    last: u8,
}

const LEVEL_1: Level = Level {
    parameters: 7,
    last: 1 << 7,
};

const LOWER: Level = Level {
    parameters: 6,
    last: 1 << 6,
};

/// Marks the very last octet of a Par(2) block, and no other in it.
const PAR_2_LAST: u8 = 1 << 7;

impl Level {
    /// Takes a block from the front; nothing if its last octet is missing.
    fn take_block<'a>(&self, octets: &mut &'a [u8]) -> Option<&'a [u8]> {
        let last = octets.iter().position(|octet| octet & self.last != 0)?;
        let (block, behind) = octets.split_at(last + 1);
        *octets = behind;
        Some(block)
    }

    fn positions<'a>(&'a self, block: &'a [u8]) -> impl Iterator<Item = u32> + 'a {
        let of_octet = move |(octet, before): (&'a u8, u32)| {
            let set = move |bit: &u32| octet >> (bit - 1) & 1 == 1;
            let bits = (1..=self.parameters).filter(set);
            bits.map(move |bit| before * self.parameters + bit)
        };
        block.iter().zip(0..).flat_map(of_octet)
    }

    /// The shortest block in which these positions are set.
    fn block<'a>(&self, positions: impl Iterator<Item = &'a u32>) -> Vec<u8> {
        let mut block = vec![0];
        for position in positions {
            let place = ((position - 1) / self.parameters) as usize;
            let bit = (position - 1) % self.parameters;
            block.resize(block.len().max(place + 1), 0);
            block[place] |= 1 << bit;
        }
        mark_last(&mut block, self.last);
        block
    }
}

fn mark_last(octets: &mut [u8], mark: u8) {
    if let Some(octet) = octets.last_mut() {
        *octet |= mark;
    }
}

/// What is set in one part of a tree: positions that have nothing below them,
/// and positions with the branch that belongs to each.
#[derive(Clone, Debug, Default, PartialEq)]
pub struct Branch {
    pub npars: BTreeSet<u32>,
    pub spars: BTreeMap<u32, Branch>,
}

impl Branch {
    /// The branch of the two blocks; what belongs to each SPar is taken in
    /// their order.
    fn of_blocks(
        level: &Level,
        [npars, spars]: [&[u8]; 2],
        mut take_below: impl FnMut() -> Option<Branch>,
    ) -> Option<Branch> {
        let with_below = |position| Some((position, take_below()?));
        let spars: Option<_> = level.positions(spars).map(with_below).collect();
        Some(Branch {
            npars: level.positions(npars).collect(),
            spars: spars?,
        })
    }

    /// Takes the tree of a whole field.
    pub fn take_field(octets: &mut &[u8]) -> Option<Branch> {
        let npars = LEVEL_1.take_block(octets)?;
        let spars = LEVEL_1.take_block(octets)?;
        Branch::of_blocks(&LEVEL_1, [npars, spars], || Branch::take_par_2(octets))
    }

    /// Takes a Par(2) block and looks at the marks of all its octets.
    fn take_par_2(octets: &mut &[u8]) -> Option<Branch> {
        let from_here = *octets;
        let branch = Branch::take_lower_blocks(octets)?;
        let taken = from_here.len() - octets.len();
        let (last, others) = from_here[..taken].split_last()?;
        let is_marked = |octet: &u8| octet & PAR_2_LAST != 0;
        let well_marked = is_marked(last) && !others.iter().any(is_marked);
        well_marked.then_some(branch)
    }

    fn take_lower_blocks(octets: &mut &[u8]) -> Option<Branch> {
        let npars = LOWER.take_block(octets)?;
        let more_follow = npars.last()? & PAR_2_LAST == 0;
        let spars = if more_follow {
            LOWER.take_block(octets)?
        } else {
            &[]
        };
        Branch::of_blocks(&LOWER, [npars, spars], || Branch::take_npar_3(octets))
    }

    fn take_npar_3(octets: &mut &[u8]) -> Option<Branch> {
        let npars = LOWER.take_block(octets)?;
        Branch::of_blocks(&LOWER, [npars, &[]], || None)
    }

    /// The octets of a field that has this tree.
    pub fn field(&self) -> Vec<u8> {
        let mut octets = LEVEL_1.block(self.npars.iter());
        octets.extend(LEVEL_1.block(self.spars.keys()));
        octets.extend(self.spars.values().flat_map(Branch::par_2));
        octets
    }

    fn par_2(&self) -> Vec<u8> {
        let mut octets = LOWER.block(self.npars.iter());
        if !self.spars.is_empty() {
            octets.extend(LOWER.block(self.spars.keys()));
        }
        for branch in self.spars.values() {
            octets.extend(LOWER.block(branch.npars.iter()));
        }
        mark_last(&mut octets, PAR_2_LAST);
        octets
    }

    /// Sets the parameter here, and those on the way to it.
    pub fn set(&mut self, code: Code) {
        let way = [code.s, code.t].into_iter().filter(|&part| part > 0);
        let branch = way.fold(self, |branch, part| branch.spars.entry(part).or_default());
        branch.npars.extend(Some(code.n).filter(|&part| part > 0));
    }

    /// The codes of all that is set in a field with this tree.
    pub fn field_codes(&self, f: u32) -> Vec<u32> {
        self.codes(Code::new(f, 0, 0, 0).number(), Code::BASE.pow(2))
    }

    /// The codes of all that is set, where `above` is the code of the branch
    /// itself and `weight` the factor that its SPars have in a code.
    fn codes(&self, above: u32, weight: u32) -> Vec<u32> {
        let npars = self.npars.iter().map(|position| above + position);
        let spars = self.spars.iter().flat_map(|(position, branch)| {
            let code = above + weight * position;
            iter::once(code).chain(branch.codes(code, weight / Code::BASE))
        });
        npars.chain(spars).collect()
    }
}
