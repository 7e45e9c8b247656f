//! Frames by V.8 bis 7.2: a reader built like a line receiver that hears one
//! bit after the other, and a writer built as a chain of bit iterators.

use crate::wire::Row;
use std::collections::VecDeque;

const FLAG: [bool; 8] = [false, true, true, true, true, true, true, false];

/// This many ones in a row are followed by an inserted zero.
const ONES_BEFORE_ZERO: u8 = 5;

const FCS_OCTETS: usize = 2;
const MOST_INFORMATION: usize = 64;
const MOST_BITS: usize = 704;
const READER_ROOM: usize = 64;
const WRITER_ROOM: usize = 88;

/// The answer numbers; the writer's are 1, 7 and 8.
mod number {
    pub const SUCCESS: u8 = 0;
    pub const LIMITS: u8 = 1;
    pub const BOUNDS: u8 = 2;
    pub const NO_WHOLE_OCTETS: u8 = 3;
    pub const TOO_SHORT: u8 = 4;
    pub const TOO_LONG: u8 = 5;
    pub const FCS_WRONG: u8 = 6;
    pub const INFORMATION_LENGTH: u8 = 7;
    pub const FLAG_COUNTS: u8 = 8;
}

/// An answer of the reader (`count` in octets) or of the writer (in bits),
/// with the output buffer as it comes back.
#[derive(Debug, PartialEq)]
pub struct Answer {
    pub number: u8,
    pub count: u16,
    pub out: Vec<u8>,
}

impl Answer {
    fn refused(number: u8, lent: &[u8]) -> Answer {
        Answer {
            number,
            count: 0,
            out: lent.to_vec(),
        }
    }

    fn written(count: usize, octets: &[u8], lent: &[u8]) -> Answer {
        let mut out = lent.to_vec();
        out[..octets.len()].copy_from_slice(octets);
        Answer {
            number: number::SUCCESS,
            count: count as u16,
            out,
        }
    }

    /// The answer as the probe's reply has it.
    pub fn reply(&self) -> Vec<u8> {
        let row = Row::new().u8(self.number).u16(self.count);
        row.run(&self.out).done()
    }
}

/// The bits of the octets in the order of the line, bit 1 of each first.
pub fn bits_of(octets: &[u8]) -> impl Iterator<Item = bool> + '_ {
    octets
        .iter()
        .flat_map(|octet| (0..8).map(move |place| octet >> place & 1 == 1))
}

/// The octets that hold the bits; unused bits of the last one are zero.
pub fn packed(bits: &[bool]) -> Vec<u8> {
    let octet = |bits: &[bool]| {
        let places = bits.iter().enumerate();
        places.fold(0, |octet, (place, &bit)| octet | u8::from(bit) << place)
    };
    bits.chunks(8).map(octet).collect()
}

pub fn flags(count: usize) -> impl Iterator<Item = bool> {
    (0..count).flat_map(|_| FLAG)
}

/// The register of 7.2.7 that divides by x^16 + x^12 + x^5 + 1. Its highest
/// bit is the coefficient of x^15.
pub struct FcsRegister(u16);

impl FcsRegister {
    const GENERATOR: u16 = 1 << 12 | 1 << 5 | 1;

    /// What division leaves of a faultless frame, its FCS included.
    const FAULTLESS: u16 = 0b0001_1101_0000_1111;

    pub fn after(bits: impl Iterator<Item = bool>) -> FcsRegister {
        let mut register = FcsRegister(0xFFFF);
        bits.for_each(|bit| register.take(bit));
        register
    }

    fn take(&mut self, bit: bool) {
        let carried_out = self.0 >> 15 == 1;
        self.0 <<= 1;
        if carried_out != bit {
            self.0 ^= Self::GENERATOR;
        }
    }

    fn is_faultless(&self) -> bool {
        self.0 == Self::FAULTLESS
    }

    /// The FCS in the order of the line: the complement, highest coefficient
    /// first.
    pub fn fcs(&self) -> [bool; 16] {
        std::array::from_fn(|place| self.0 >> (15 - place) & 1 == 0)
    }
}

/// Puts a zero behind every five ones in a row, at the very end too.
pub struct ZeroInserter<I> {
    bits: I,
    ones: u8,
}

impl<I: Iterator<Item = bool>> ZeroInserter<I> {
    pub fn over(bits: I) -> ZeroInserter<I> {
        ZeroInserter { bits, ones: 0 }
    }
}

impl<I: Iterator<Item = bool>> Iterator for ZeroInserter<I> {
    type Item = bool;

    fn next(&mut self) -> Option<bool> {
        if self.ones == ONES_BEFORE_ZERO {
            self.ones = 0;
            return Some(false);
        }
        let bit = self.bits.next()?;
        self.ones = if bit { self.ones + 1 } else { 0 };
        Some(bit)
    }
}

/// Takes the inserted zeros out again and notices where one is missing.
#[derive(Default)]
struct ZeroRemover {
    kept: Vec<bool>,
    ones: u8,
    zero_missed: bool,
}

impl ZeroRemover {
    fn take(&mut self, bit: bool) {
        if self.ones < ONES_BEFORE_ZERO {
            self.kept.push(bit);
        } else if bit {
            self.zero_missed = true;
        }
        // A run may be one long row of ones.
        self.ones = if bit { self.ones.saturating_add(1) } else { 0 };
    }

    fn has_all_zeros(&self) -> bool {
        !self.zero_missed && self.ones < ONES_BEFORE_ZERO
    }
}

#[derive(Clone, Copy, PartialEq)]
enum Stage {
    Opening,
    Content,
    Closing,
    LeftOver,
}

/// Hears a run bit by bit. The newest bits stand in a line of eight places,
/// where flags are seen; what leaves the line at its far end is content.
struct Receiver {
    stage: Stage,
    line: VecDeque<bool>,
    opening: usize,
    closing: usize,
    content: ZeroRemover,
}

impl Receiver {
    fn new() -> Receiver {
        Receiver {
            stage: Stage::Opening,
            line: VecDeque::new(),
            opening: 0,
            closing: 0,
            content: ZeroRemover::default(),
        }
    }

    fn hear(&mut self, bit: bool) {
        if self.line.len() == FLAG.len() {
            let oldest = self.line.pop_front();
            self.content.take(oldest.expect("the line is full"));
        }
        self.line.push_back(bit);
        if self.line.len() == FLAG.len() {
            self.judge_line();
        }
    }

    /// Content may stand in the line, bits between or behind closing flags
    /// may not; a flag empties the line, so that no two share a zero.
    fn judge_line(&mut self) {
        let is_flag = self.line.iter().eq(&FLAG);
        self.stage = match (self.stage, is_flag) {
            (Stage::Opening, true) => Stage::Opening,
            (Stage::Opening | Stage::Content, false) => Stage::Content,
            (Stage::Content | Stage::Closing, true) => Stage::Closing,
            (Stage::Closing, false) | (Stage::LeftOver, _) => Stage::LeftOver,
        };
        if is_flag {
            self.line.clear();
            self.opening += usize::from(self.stage == Stage::Opening);
            self.closing += usize::from(self.stage == Stage::Closing);
        }
    }

    fn is_well_bounded(&self) -> bool {
        self.stage == Stage::Closing
            && self.line.is_empty()
            && (2..=5).contains(&self.opening)
            && (1..=3).contains(&self.closing)
            && self.content.has_all_zeros()
    }

    /// The information heard, or the refusal.
    fn verdict(self) -> Result<Vec<u8>, u8> {
        if !self.is_well_bounded() {
            return Err(number::BOUNDS);
        }
        let bits = self.content.kept;
        if !bits.len().is_multiple_of(8) {
            return Err(number::NO_WHOLE_OCTETS);
        }
        let mut octets = packed(&bits);
        if octets.len() < 1 + FCS_OCTETS {
            return Err(number::TOO_SHORT);
        }
        if octets.len() > MOST_INFORMATION + FCS_OCTETS {
            return Err(number::TOO_LONG);
        }
        if !FcsRegister::after(bits.into_iter()).is_faultless() {
            return Err(number::FCS_WRONG);
        }
        octets.truncate(octets.len() - FCS_OCTETS);
        Ok(octets)
    }
}

/// The frame reader.
pub fn read(bit_count: usize, run: &[u8], out: &[u8]) -> Answer {
    let within_limits = bit_count <= MOST_BITS && bit_count.div_ceil(8) <= run.len();
    if !within_limits || out.len() < READER_ROOM {
        return Answer::refused(number::LIMITS, out);
    }
    let mut receiver = Receiver::new();
    let bits = bits_of(run).take(bit_count);
    bits.for_each(|bit| receiver.hear(bit));
    match receiver.verdict() {
        Ok(information) => Answer::written(information.len(), &information, out),
        Err(number) => Answer::refused(number, out),
    }
}

/// The frame writer.
pub fn write(opening: usize, closing: usize, information: &[u8], out: &[u8]) -> Answer {
    if out.len() < WRITER_ROOM {
        return Answer::refused(number::LIMITS, out);
    }
    if !(1..=MOST_INFORMATION).contains(&information.len()) {
        return Answer::refused(number::INFORMATION_LENGTH, out);
    }
    if !(2..=5).contains(&opening) || !(1..=3).contains(&closing) {
        return Answer::refused(number::FLAG_COUNTS, out);
    }
    let fcs = FcsRegister::after(bits_of(information)).fcs();
    let content = ZeroInserter::over(bits_of(information).chain(fcs));
    let bits: Vec<bool> = flags(opening)
        .chain(content)
        .chain(flags(closing))
        .collect();
    Answer::written(bits.len(), &packed(&bits), out)
}

#[cfg(test)]
mod tests {
    use super::*;

    fn written(opening: usize, closing: usize, information: &[u8]) -> (u16, Vec<u8>) {
        let answer = write(opening, closing, information, &[0; WRITER_ROOM]);
        assert_eq!(answer.number, number::SUCCESS);
        (answer.count, answer.out)
    }

    #[test]
    fn fcs_check_value() {
        let fcs = FcsRegister::after(bits_of(b"123456789")).fcs();
        assert_eq!(packed(&fcs), 0x906E_u16.to_le_bytes());
        assert_eq!(packed(&fcs), [0x6E, 0x90]);
    }

    /// Information 88 is 00010001 on the line. The register goes from FFFF
    /// over EFDF CF9F 8F1F 1E3E 3C7C 78F8 F1F0 to E3E0; its complement 1C1F is
    /// 00011100 00011111 on the line and ends with five ones, so one zero
    /// more stands before the closing flag: 16 + 8 + 16 + 1 + 8 = 49 bits.
    #[test]
    fn frame_worked_out_by_hand() {
        let by_hand = [0x7E, 0x7E, 0x88, 0x38, 0xF8, 0xFC, 0x00];
        let (bits, out) = written(2, 1, &[0x88]);
        assert_eq!(bits, 49);
        assert_eq!(out[..7], by_hand);
        let answer = read(49, &by_hand, &[0xAA; READER_ROOM]);
        assert_eq!((answer.number, answer.count), (number::SUCCESS, 1));
        assert_eq!(answer.out[..2], [0x88, 0xAA]);
    }

    /// The same frame without the zero behind the last five ones.
    #[test]
    fn last_zero_left_out() {
        let run = [0x7E, 0x7E, 0x88, 0x38, 0xF8, 0x7E];
        let answer = read(48, &run, &[0xAA; READER_ROOM]);
        assert_eq!(answer, Answer::refused(number::BOUNDS, &[0xAA; 64]));
    }

    #[test]
    fn ones_get_their_zeros() {
        let bits: Vec<bool> = ZeroInserter::over(bits_of(&[0xFF, 0xFF])).collect();
        let text: String = bits
            .iter()
            .map(|&bit| if bit { '1' } else { '0' })
            .collect();
        assert_eq!(text, "1111101111101111101");
        assert_eq!(bits.len(), 19);
        assert_eq!(ZeroInserter::over([true; 5].into_iter()).count(), 6);
    }

    #[test]
    fn round_trip() {
        for length in 1..=MOST_INFORMATION {
            let information: Vec<u8> = (0..length).map(|place| (place * 37) as u8 | 0x3C).collect();
            let (opening, closing) = (2 + length % 4, 1 + length % 3);
            let (bits, run) = written(opening, closing, &information);
            let answer = read(usize::from(bits), &run, &[0x55; 70]);
            assert_eq!(answer.number, number::SUCCESS);
            assert_eq!(usize::from(answer.count), length);
            assert_eq!(answer.out[..length], information);
            assert!(answer.out[length..].iter().all(|&octet| octet == 0x55));
        }
    }

    #[test]
    fn flags_do_not_share_a_zero() {
        let (bits, run) = written(3, 1, &[0x88]);
        let mut heard: Vec<bool> = bits_of(&run).take(usize::from(bits)).collect();
        heard.remove(16);
        let answer = read(usize::from(bits) - 1, &packed(&heard), &[0; 64]);
        assert_eq!(answer.number, number::BOUNDS);
    }

    #[test]
    fn flags_alone_are_no_frame() {
        for count in 0..=88 {
            let answer = read(8 * count, &[0x7E; 88], &[0; 64]);
            assert_eq!(answer.number, number::BOUNDS);
        }
    }

    #[test]
    fn refusals_in_their_order() {
        let room = [0; 88];
        assert_eq!(write(0, 0, &[], &room[1..]).number, number::LIMITS);
        assert_eq!(write(0, 0, &[], &room).number, number::INFORMATION_LENGTH);
        assert_eq!(write(2, 4, &[1], &room).number, number::FLAG_COUNTS);
        assert_eq!(read(705, &[0; 89], &room).number, number::LIMITS);
        assert_eq!(read(9, &[0], &room).number, number::LIMITS);
        assert_eq!(read(0, &[], &room[..63]).number, number::LIMITS);
        assert_eq!(read(0, &[], &room).number, number::BOUNDS);
    }
}
