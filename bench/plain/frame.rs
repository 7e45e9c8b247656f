//! Frames (V.8 bis 7.2). Zeros are inserted and left out on whole octets held in words; only an octet that completes five ones in a
//! row is looked at more closely.

use crate::fcs;

const FLAG: u8 = 0x7E;
const MOST_INFORMATION: usize = 64;
const FRAME_ROOM: usize = 88;
const MOST_BITS: usize = 704;

#[derive(Clone, Copy)]
pub enum Refusal {
    BadLent = 1,
    BadFlags = 2,
    SplitOctet = 3,
    TooShort = 4,
    TooLong = 5,
    WrongFcs = 6,
    BadLength = 7,
    BadFlagCount = 8,
}

/// The places of a word where five ones in a row begin.
fn fives(word: u32) -> u32 {
    word & word >> 1 & word >> 2 & word >> 3 & word >> 4
}

/// Bits on their way into octets, the first lowest.
struct Pen<'a> {
    out: &'a mut [u8],
    at: usize,
    word: u32,
    held: u32,
}

impl<'a> Pen<'a> {
    fn new(out: &'a mut [u8], at: usize) -> Self {
        Pen {
            out,
            at,
            word: 0,
            held: 0,
        }
    }

    fn put_octet(&mut self, octet: u8) {
        self.word |= u32::from(octet) << self.held;
        self.out[self.at] = self.word as u8;
        self.at += 1;
        self.word >>= 8;
    }

    /// Puts up to 16 bits.
    fn put(&mut self, bits: u32, count: u32) {
        self.word |= bits << self.held;
        self.held += count;
        while self.held >= 8 {
            self.out[self.at] = self.word as u8;
            self.at += 1;
            self.word >>= 8;
            self.held -= 8;
        }
    }
}

/// Puts an octet with the zeros that it needs; `last` are the last four bits sent, and those sent now are given back.
fn put_stuffed(pen: &mut Pen, octet: u8, last: u32) -> u32 {
    let mut word = u32::from(octet) << 4 | last;
    let mut size = 12;
    let mut runs = fives(word);
    if runs == 0 {
        pen.put_octet(octet);
        return word >> 8;
    }
    while runs != 0 {
        let place = runs.trailing_zeros() + 5;
        let low = (1 << place) - 1;
        word = word & low | (word & !low) << 1;
        size += 1;
        runs = fives(word) & !low;
    }
    pen.put(word >> 4, size - 4);
    word >> (size - 4)
}

/// Writes a frame, and gives its number of bits.
pub fn write(
    information: &[u8],
    opening: usize,
    closing: usize,
    out: &mut [u8],
) -> Result<usize, Refusal> {
    if out.len() < FRAME_ROOM {
        return Err(Refusal::BadLent);
    }
    if !(1..=MOST_INFORMATION).contains(&information.len()) {
        return Err(Refusal::BadLength);
    }
    if !(2..=5).contains(&opening) || !(1..=3).contains(&closing) {
        return Err(Refusal::BadFlagCount);
    }
    out[..opening].fill(FLAG);
    let mut pen = Pen::new(out, opening);
    let mut last = 0;
    for part in [information, &fcs::of(information).to_le_bytes()] {
        for &octet in part {
            last = put_stuffed(&mut pen, octet, last);
        }
    }
    for _ in 0..closing {
        pen.put_octet(FLAG);
    }
    let bits = pen.at * 8 + pen.held as usize;
    if pen.held > 0 {
        pen.out[pen.at] = pen.word as u8;
    }
    Ok(bits)
}

/// The eight bits of a run from a place on, where there are so many.
fn octet_at(run: &[u8], place: usize) -> Option<u8> {
    let (at, shift) = (place / 8, place % 8);
    let low = u32::from(*run.get(at)?);
    let high = run.get(at + 1).map_or(0, |&octet| u32::from(octet) << 8);
    Some(((low | high) >> shift) as u8)
}

/// Reads the content behind the opening flags up to the closing flag, without its inserted zeros. Gives its number of bits and the
/// place where the closing flag begins.
fn read_content(
    run: &[u8],
    count: usize,
    opening: usize,
    plain: &mut [u8],
) -> Option<(usize, usize)> {
    let start = opening * 8;
    let mut pen = Pen::new(plain, 0);
    // the last 32 bits received
    let mut line = u32::from(FLAG) << 24;
    for (i, &octet) in run[opening..].iter().enumerate() {
        line = line >> 8 | u32::from(octet) << 24;
        // where five ones begin that are followed by a bit of this octet
        let mut runs = fives(line >> 19) & 0xFF;
        if runs == 0 {
            pen.put_octet(octet);
            continue;
        }
        let mut kept = u32::from(octet);
        let mut size = 8;
        while runs != 0 {
            let place = runs.trailing_zeros();
            if octet >> place & 1 == 1 {
                // a sixth one: a flag, if the zero before it is one of the content and a zero follows
                let sixth = start + i * 8 + place as usize;
                let inserted = line >> (13 + place) & 0x1F == 0x1F;
                if sixth < start + 6 || inserted {
                    return None;
                }
                let before = place + size - 8;
                pen.put(kept & ((1 << before) - 1), before);
                let bits = pen.at * 8 + pen.held as usize - 6;
                return (sixth + 1 < count).then_some((bits, sixth - 6));
            }
            let low = (1 << (place + size - 8)) - 1;
            kept = kept & low | kept >> 1 & !low;
            size -= 1;
            runs &= runs - 1;
        }
        pen.put(kept, size);
    }
    None
}

/// Reads the frame that the first `count` bits of a run are, and gives its number of octets of information.
pub fn read(run: &[u8], count: usize, out: &mut [u8]) -> Result<usize, Refusal> {
    if count > MOST_BITS || (count + 7) / 8 > run.len() || out.len() < MOST_INFORMATION {
        return Err(Refusal::BadLent);
    }
    let whole = &run[..count / 8];
    let run = &run[..(count + 7) / 8];
    let opening = whole.iter().take_while(|&&octet| octet == FLAG).count();
    if !(2..=5).contains(&opening) {
        return Err(Refusal::BadFlags);
    }
    let mut plain = [0; FRAME_ROOM];
    let (bits, end) = read_content(run, count, opening, &mut plain).ok_or(Refusal::BadFlags)?;
    let rest = count - end;
    if rest % 8 != 0
        || rest > 24
        || (end..count)
            .step_by(8)
            .any(|place| octet_at(run, place) != Some(FLAG))
    {
        return Err(Refusal::BadFlags);
    }
    if bits % 8 != 0 {
        return Err(Refusal::SplitOctet);
    }
    match bits / 8 {
        0..=2 => Err(Refusal::TooShort),
        octets @ 3..=66 => {
            let (information, sequence) = plain[..octets].split_at(octets - 2);
            if fcs::of(information).to_le_bytes() != sequence {
                return Err(Refusal::WrongFcs);
            }
            out[..octets - 2].copy_from_slice(information);
            Ok(octets - 2)
        }
        _ => Err(Refusal::TooLong),
    }
}
