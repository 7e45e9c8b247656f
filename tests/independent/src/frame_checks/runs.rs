//! Runs of bits, whole and faulty, and the cases made of them.

use crate::bench::{Case, Outcome};
use crate::frame::{self, FcsRegister, ZeroInserter};
use crate::random::Random;
use crate::wire::Row;

pub use crate::wire::MOST_LENT;

pub const READER: &str = "frame reader";
pub const WRITER: &str = "frame writer";
const READER_OPERATION: u8 = 1;
const WRITER_OPERATION: u8 = 2;

pub type Bits = Vec<bool>;

pub fn outcomes() -> Vec<Outcome> {
    let of = |operation| move |number| Outcome { operation, number };
    let reader = (0..=6).map(of(READER));
    let writer = [0, 1, 7, 8].into_iter().map(of(WRITER));
    reader.chain(writer).collect()
}

pub fn reader_request(bit_count: u32, run: &[u8], out: &[u8]) -> Vec<u8> {
    let row = Row::new().u8(READER_OPERATION).u32(bit_count);
    row.run(run).run(out).done()
}

pub fn writer_request(opening: u8, closing: u8, information: &[u8], out: &[u8]) -> Vec<u8> {
    let row = Row::new().u8(WRITER_OPERATION).u8(opening).u8(closing);
    row.run(information).run(out).done()
}

pub fn reader_case(bit_count: u32, run: &[u8], out: &[u8]) -> Case {
    let answer = frame::read(bit_count as usize, run, out);
    let outcome = Outcome {
        operation: READER,
        number: answer.number,
    };
    Case::new(reader_request(bit_count, run, out), answer.reply(), outcome)
}

pub fn writer_case(opening: u8, closing: u8, information: &[u8], out: &[u8]) -> Case {
    let answer = frame::write(usize::from(opening), usize::from(closing), information, out);
    let outcome = Outcome {
        operation: WRITER,
        number: answer.number,
    };
    let request = writer_request(opening, closing, information, out);
    Case::new(request, answer.reply(), outcome)
}

/// The bits given to the reader, with something behind them in the run and
/// an output that is large enough and filled at random.
pub fn heard(random: &mut Random, bits: &[bool]) -> Case {
    let run = lent(random, bits);
    let room = random.pick(&[64, 64, 65, 66, 88, 127, 128, 200, MOST_LENT]);
    reader_case(bits.len() as u32, &run, &random.octets(room))
}

/// The bits as a run. What stands behind them, in the last octet and in more
/// octets, may be anything, flags too.
pub fn lent(random: &mut Random, bits: &[bool]) -> Vec<u8> {
    let most_more = MOST_LENT - bits.len().div_ceil(8);
    let more = random.pick(&[0, 0, 1, 2, 7, 30]).min(most_more);
    let length = 8 * (bits.len().div_ceil(8) + more);
    let behind = length - bits.len();
    let tail = match random.below(5) {
        0 => vec![false; behind],
        1 => vec![true; behind],
        2 => frame::flags(behind).take(behind).collect(),
        _ => random.bits(behind),
    };
    frame::packed(&[bits, &tail].concat())
}

pub fn flag_bits(count: usize) -> Bits {
    frame::flags(count).collect()
}

/// The bits with their FCS behind them, no zeros inserted.
pub fn with_fcs(bits: &[bool]) -> Bits {
    let fcs = FcsRegister::after(bits.iter().copied()).fcs();
    [bits, &fcs].concat()
}

/// The bits with their zeros inserted.
pub fn with_zeros(bits: &[bool]) -> Bits {
    ZeroInserter::over(bits.iter().copied()).collect()
}

pub fn octet_bits(octets: &[u8]) -> Bits {
    frame::bits_of(octets).collect()
}

/// The information with its FCS and inserted zeros.
pub fn content(information: &[u8]) -> Bits {
    with_zeros(&with_fcs(&octet_bits(information)))
}

pub fn between_flags(opening: usize, content: &[bool], closing: usize) -> Bits {
    [&flag_bits(opening), content, &flag_bits(closing)].concat()
}

pub fn frame_bits(opening: usize, information: &[u8], closing: usize) -> Bits {
    between_flags(opening, &content(information), closing)
}

/// Every pair of opening and closing flags that a frame may have.
pub fn flag_pairs() -> impl Iterator<Item = (usize, usize)> {
    (2..=5).flat_map(|opening| (1..=3).map(move |closing| (opening, closing)))
}

pub fn flag_pair(random: &mut Random) -> (usize, usize) {
    (random.within(2, 5), random.within(1, 3))
}

/// Information of various kinds, many of them rich in ones.
pub fn information(random: &mut Random, length: usize) -> Vec<u8> {
    const RICH: [u8; 10] = [0xFF, 0xFF, 0xFE, 0x7F, 0x7E, 0x3E, 0xF8, 0x1F, 0xDF, 0x00];
    match random.below(8) {
        0 => vec![0xFF; length],
        1 => vec![0x00; length],
        2 => vec![0x7E; length],
        3 | 4 => (0..length).map(|_| random.pick(&RICH)).collect(),
        _ => random.octets(length),
    }
}

/// A faultless frame of any length with any flags.
pub fn any_frame(random: &mut Random) -> Bits {
    let length = random.within(1, 64);
    let (opening, closing) = flag_pair(random);
    frame_bits(opening, &information(random, length), closing)
}

/// Information whose FCS ends with five ones, so that an inserted zero is the
/// last bit before the closing flag.
pub fn ending_with_five_ones(random: &mut Random, length: usize) -> Vec<u8> {
    const FIVE_ONES_AND_ZERO: [bool; 6] = [true, true, true, true, true, false];
    loop {
        let information = random.octets(length);
        if content(&information).ends_with(&FIVE_ONES_AND_ZERO) {
            return information;
        }
    }
}

/// The information of 64 octets with the most inserted zeros, 104 of them:
/// all ones but bit 1 of the octets 21 and 27. With five and three flags its
/// run has 696 bits.
pub fn longest_information() -> Vec<u8> {
    let mut octets = vec![0xFF; 64];
    octets[20] = 0xFE;
    octets[26] = 0xFE;
    octets
}

#[cfg(test)]
mod tests {
    use super::*;

    #[test]
    fn longest_frame() {
        assert_eq!(frame_bits(5, &longest_information(), 3).len(), 696);
    }

    #[test]
    fn five_ones_at_the_end() {
        let mut random = Random::named("five ones");
        for length in 1..=64 {
            let information = ending_with_five_ones(&mut random, length);
            let plain = with_fcs(&octet_bits(&information));
            assert!(plain.ends_with(&[true; 5]));
        }
    }

    #[test]
    fn bits_lent_are_in_front() {
        let mut random = Random::named("lent");
        for count in 0..100 {
            let bits = random.bits(count);
            let run = lent(&mut random, &bits);
            assert!(frame::bits_of(&run).take(count).eq(bits));
            assert!(run.len() <= MOST_LENT);
        }
    }
}
