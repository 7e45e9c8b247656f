//! Messages laid out block by block, in minimal form or not, together with
//! the codes they carry.

use super::drawn::non_standard_field;
use super::requests::WITH_FIELDS;
use crate::message::{Code, Meaning};
use crate::random::Random;
use std::collections::BTreeSet;

/// The parameter bits of each octet of a block, without the marks.
pub type Block = Vec<u8>;

/// The number of parameter bits in an octet.
pub const LEVEL_1: usize = 7;
pub const LOWER: usize = 6;

const LEVEL_1_LAST: u8 = 0x80;
const LOWER_LAST: u8 = 0x40;
const PAR_2_LAST: u8 = 0x80;
pub const NON_STANDARD_BIT: u8 = 0x40;

/// A Par(2) block. Where its SPar(2) block is left out, `spars` is empty.
#[derive(Clone)]
pub struct Par2 {
    pub npars: Block,
    pub spars: Block,
    pub below: Vec<Block>,
}

/// An I or S field.
#[derive(Clone)]
pub struct Field {
    pub npars: Block,
    pub spars: Block,
    pub below: Vec<Par2>,
}

/// An MS, CL or CLR message.
#[derive(Clone)]
pub struct Layout {
    pub kind: u8,
    pub revision: u8,
    pub identification: Field,
    pub standard: Field,
    pub non_standard: Vec<u8>,
}

/// The octets with the mark in their last one, if there is one.
fn marked(octets: &[u8], mark: u8) -> Vec<u8> {
    let mut octets = octets.to_vec();
    if let Some(last) = octets.last_mut() {
        *last |= mark;
    }
    octets
}

fn positions(block: &[u8], bits: usize) -> Vec<u32> {
    let is_set = |place: &usize| block[place / bits] >> (place % bits) & 1 == 1;
    let places = (0..bits * block.len()).filter(is_set);
    places.map(|place| place as u32 + 1).collect()
}

pub fn ones(block: &[u8]) -> usize {
    block.iter().map(|octet| octet.count_ones() as usize).sum()
}

/// The shortest block with these positions set; 0 is no position.
fn block_with(positions: impl Iterator<Item = u32>, bits: usize) -> Block {
    let mut block = vec![0; 1];
    for place in positions.filter_map(|position| position.checked_sub(1)) {
        let octet = place as usize / bits;
        block.resize(block.len().max(octet + 1), 0);
        block[octet] |= 1 << (place as usize % bits);
    }
    block
}

/// Leaves out the octets without parameters at the end, but keeps the first.
fn trim(block: &mut Block) {
    while block.len() > 1 && block.last() == Some(&0) {
        block.pop();
    }
}

/// Adds an octet to one of the blocks; `bits` draws what is set in it.
fn add_octet(random: &mut Random, mut blocks: Vec<&mut Block>, bits: impl Fn(&mut Random) -> u8) {
    let chosen = random.below(blocks.len());
    blocks[chosen].push(bits(random));
}

impl Par2 {
    /// One octet with these parameter bits.
    pub fn of_bits(bits: u8) -> Par2 {
        Par2 {
            npars: vec![bits],
            spars: Vec::new(),
            below: Vec::new(),
        }
    }

    /// The smallest Par(2) block with these parameters of one SPar(1).
    fn of_codes(codes: &[Code]) -> Par2 {
        let npars_at = |t| {
            let here = codes.iter().filter(move |code| code.t == t);
            block_with(here.map(|code| code.n), LOWER)
        };
        let spars: BTreeSet<u32> = codes.iter().map(|code| code.t).collect();
        let below = spars.iter().filter(|&&t| t > 0).map(|&t| npars_at(t));
        let par_2 = Par2 {
            npars: npars_at(0),
            below: below.collect(),
            spars: block_with(spars.into_iter(), LOWER),
        };
        par_2.trimmed()
    }

    fn octets(&self) -> Vec<u8> {
        let own = [&self.npars, &self.spars];
        let blocks = own.into_iter().chain(&self.below);
        let octets: Vec<u8> = blocks.flat_map(|block| marked(block, LOWER_LAST)).collect();
        marked(&octets, PAR_2_LAST)
    }

    /// The codes below the SPar(1) with this code.
    fn codes(&self, above: Code) -> Vec<Code> {
        let with_npars = |above: Code, block: &[u8]| {
            let npars = positions(block, LOWER).into_iter();
            npars.map(move |n| Code { n, ..above })
        };
        let mut codes: Vec<Code> = with_npars(above, &self.npars).collect();
        for (t, block) in positions(&self.spars, LOWER).into_iter().zip(&self.below) {
            let spar = Code { t, ..above };
            codes.push(spar);
            codes.extend(with_npars(spar, block));
        }
        codes
    }

    fn trim(&mut self) {
        trim(&mut self.npars);
        trim(&mut self.spars);
        if ones(&self.spars) == 0 {
            self.spars.clear();
        }
        self.below.iter_mut().for_each(trim);
    }

    fn trimmed(mut self) -> Par2 {
        self.trim();
        self
    }

    fn npar_blocks(&mut self) -> impl Iterator<Item = &mut Block> {
        [&mut self.npars].into_iter().chain(&mut self.below)
    }

    fn spar_blocks(&mut self) -> impl Iterator<Item = &mut Block> {
        let present = |block: &&mut Block| !block.is_empty();
        [&mut self.spars].into_iter().filter(present)
    }
}

impl Field {
    pub fn empty() -> Field {
        Field {
            npars: vec![0],
            spars: vec![0],
            below: Vec::new(),
        }
    }

    /// The smallest field in which these parameters are set. Those above them
    /// need not be given.
    pub fn of_codes(codes: &BTreeSet<Code>) -> Field {
        let at = |s| codes.iter().copied().filter(move |code| code.s == s);
        let spars: BTreeSet<u32> = codes.iter().map(|code| code.s).collect();
        let par_2 = |&s: &u32| Par2::of_codes(&at(s).collect::<Vec<Code>>());
        Field {
            npars: block_with(at(0).map(|code| code.n), LEVEL_1),
            below: spars.iter().filter(|&&s| s > 0).map(par_2).collect(),
            spars: block_with(spars.into_iter(), LEVEL_1),
        }
    }

    /// The field with needless octets at the end of some blocks, and with some
    /// SPar(2) blocks in which nothing is set.
    pub fn loosened(mut self, random: &mut Random) -> Field {
        for par_2 in &mut self.below {
            if par_2.spars.is_empty() && random.below(3) == 0 {
                par_2.spars.push(0);
            }
        }
        let mut loosen =
            |block: &mut Block| block.resize(block.len() + random.pick(&[0, 0, 0, 1, 2]), 0);
        self.npar_blocks().for_each(&mut loosen);
        self.spar_blocks().for_each(&mut loosen);
        self
    }

    /// The field with octets added at the ends of NPar blocks until it has
    /// this length; `bits` draws what is set in them.
    pub fn stretched(
        mut self,
        random: &mut Random,
        length: usize,
        bits: impl Fn(&mut Random) -> u8,
    ) -> Field {
        while self.octets().len() < length {
            add_octet(random, self.npar_blocks().collect(), &bits);
        }
        self
    }

    /// The field with needless octets at the ends of any blocks until it has
    /// this length.
    pub fn padded(mut self, random: &mut Random, length: usize) -> Field {
        while self.octets().len() < length {
            let blocks = match random.bit() {
                true => self.npar_blocks().collect(),
                false => self.spar_blocks().collect(),
            };
            add_octet(random, blocks, nothing);
        }
        self
    }

    pub fn octets(&self) -> Vec<u8> {
        let mut octets = marked(&self.npars, LEVEL_1_LAST);
        octets.extend(marked(&self.spars, LEVEL_1_LAST));
        octets.extend(self.below.iter().flat_map(Par2::octets));
        octets
    }

    fn codes(&self, f: u32) -> Vec<Code> {
        let npars = positions(&self.npars, LEVEL_1).into_iter();
        let mut codes: Vec<Code> = npars.map(|n| Code::new(f, 0, 0, n)).collect();
        for (s, par_2) in positions(&self.spars, LEVEL_1).into_iter().zip(&self.below) {
            let spar = Code::new(f, s, 0, 0);
            codes.push(spar);
            codes.extend(par_2.codes(spar));
        }
        codes
    }

    fn trim(&mut self) {
        trim(&mut self.npars);
        trim(&mut self.spars);
        self.below.iter_mut().for_each(Par2::trim);
    }

    fn npar_blocks(&mut self) -> impl Iterator<Item = &mut Block> {
        let below = self.below.iter_mut().flat_map(Par2::npar_blocks);
        [&mut self.npars].into_iter().chain(below)
    }

    fn spar_blocks(&mut self) -> impl Iterator<Item = &mut Block> {
        let below = self.below.iter_mut().flat_map(Par2::spar_blocks);
        [&mut self.spars].into_iter().chain(below)
    }
}

impl Layout {
    /// A message of any type and revision with these fields and no NS.
    pub fn of_fields(random: &mut Random, identification: Field, standard: Field) -> Layout {
        Layout {
            kind: random.pick(&WITH_FIELDS),
            revision: random.below(16) as u8,
            identification,
            standard,
            non_standard: Vec::new(),
        }
    }

    /// The smallest message in which the parameter is set.
    pub fn with(random: &mut Random, code: Code) -> Layout {
        let field_or_empty = |f| match code.f == f {
            true => Field::of_codes(&BTreeSet::from([code])),
            false => Field::empty(),
        };
        let layout = Layout::of_fields(random, field_or_empty(1), field_or_empty(2));
        if code == Code::NON_STANDARD_FIELD {
            return layout.announcing(non_standard_field(random, 3));
        }
        layout
    }

    /// The message with this NS, well formed or not, and its bit set.
    pub fn announcing(mut self, non_standard: Vec<u8>) -> Layout {
        self.identification.npars[0] |= NON_STANDARD_BIT;
        self.non_standard = non_standard;
        self
    }

    /// The message with octets added at the ends of NPar blocks until it has
    /// this length; `bits` draws what is set in them.
    pub fn stretched(
        mut self,
        random: &mut Random,
        length: usize,
        bits: impl Fn(&mut Random) -> u8,
    ) -> Layout {
        while self.length() < length {
            add_octet(random, self.npar_blocks(), &bits);
        }
        self
    }

    fn fields(&mut self) -> impl Iterator<Item = &mut Field> {
        [&mut self.identification, &mut self.standard].into_iter()
    }

    pub fn npar_blocks(&mut self) -> Vec<&mut Block> {
        self.fields().flat_map(Field::npar_blocks).collect()
    }

    /// The SPar blocks that are not left out.
    pub fn spar_blocks(&mut self) -> Vec<&mut Block> {
        self.fields().flat_map(Field::spar_blocks).collect()
    }

    /// The same message in minimal form.
    pub fn trimmed(&self) -> Layout {
        let mut layout = self.clone();
        layout.identification.trim();
        layout.standard.trim();
        layout
    }

    pub fn octets(&self) -> Vec<u8> {
        let first = vec![self.revision << 4 | self.kind];
        let fields = [self.identification.octets(), self.standard.octets()];
        [first, fields.concat(), self.non_standard.clone()].concat()
    }

    pub fn length(&self) -> usize {
        self.octets().len()
    }

    /// Where the S field begins, in octets from 0.
    pub fn standard_place(&self) -> usize {
        1 + self.identification.octets().len()
    }

    pub fn meaning(&self) -> Meaning {
        let fields = [self.identification.codes(1), self.standard.codes(2)];
        Meaning {
            kind: self.kind,
            revision: self.revision,
            codes: fields.concat().into_iter().map(Code::number).collect(),
            non_standard: self.non_standard.clone(),
        }
    }
}

/// No parameters at all: what a needless octet has set.
pub fn nothing(_: &mut Random) -> u8 {
    0
}

/// One to six parameters.
pub fn something(random: &mut Random) -> u8 {
    random.within(1, 63) as u8
}

#[cfg(test)]
mod tests {
    use super::*;
    use crate::wire;

    #[test]
    fn smallest_message_with_a_parameter() {
        let mut random = Random::named("smallest");
        let mut behind_first = |code| wire::hex(&Layout::with(&mut random, code).octets()[1..]);
        assert_eq!(behind_first(Code::new(1, 0, 0, 9)), "0082808080");
        assert_eq!(behind_first(Code::new(2, 8, 0, 0)), "8080800081c0");
        assert_eq!(behind_first(Code::new(2, 1, 0, 7)), "8080808100c1");
        assert_eq!(behind_first(Code::new(1, 2, 3, 6)), "80824044e08080");
    }

    #[test]
    fn stretched_to_the_length() {
        let mut random = Random::named("stretched");
        for length in 20..=80 {
            let layout = Layout::within(&mut random, 3, 20).trimmed();
            let minimal = layout.clone().stretched(&mut random, length, something);
            assert_eq!(minimal.length(), length);
            assert_eq!(minimal.trimmed().length(), length);
            let longer = layout.clone().stretched(&mut random, length, nothing);
            assert_eq!(longer.length(), length);
            assert_eq!(longer.trimmed().octets(), layout.octets());
        }
    }
}
