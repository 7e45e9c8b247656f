//! Messages by V.8 bis clause 8: a reader that takes the octets apart into
//! trees of sets, a writer that grows such trees from codes and puts each
//! block together from its set, and striking.

mod code;
mod far;
mod names;
mod standard;
mod striking;
#[cfg(test)]
mod tests;
mod tree;

pub use code::Code;
pub use far::far_parameters;
pub use standard::{minimal_parameters, parameters_in_front, standard_place, Parameters};
pub use striking::{strike, struck};

use crate::wire::Row;
use code::{IDENTIFICATION, STANDARD};
use std::collections::BTreeSet;
use tree::Branch;

const MOST_OCTETS: usize = 64;
const MOST_REVISION: u8 = 15;

/// The numbers a list must have room for.
const READER_ROOM: usize = 448;

/// The octets an output must have room for.
const WRITER_ROOM: usize = 64;

/// What every number of a list is before the reader fills it.
const UNTOUCHED: u32 = 0xDEAD_BEEF;

/// The answer numbers; the reader's are 0 to 4, the writer has no 2 and no 4.
mod number {
    pub const SUCCESS: u8 = 0;
    pub const ROOM: u8 = 1;
    pub const LENGTH: u8 = 2;
    pub const UNKNOWN: u8 = 3;
    pub const MALFORMED: u8 = 4;
    pub const SHAPE: u8 = 5;
    pub const ORDER: u8 = 6;
    pub const PARENT: u8 = 7;
    pub const NOT_BARE: u8 = 8;
    pub const NON_STANDARD: u8 = 9;
    pub const TOO_LONG: u8 = 10;
}

fn is_known(kind: u8) -> bool {
    has_fields(kind) || matches!(kind, 4 | 5 | 8..=11)
}

/// Whether a message of this type has more than its first octet.
fn has_fields(kind: u8) -> bool {
    matches!(kind, 1..=3)
}

/// A message taken apart. ACK and NAK have empty fields.
#[derive(Clone, Debug, Default, PartialEq)]
struct Message {
    kind: u8,
    revision: u8,
    identification: Branch,
    standard: Branch,
    non_standard: Vec<u8>,
}

impl Message {
    fn of_octets(octets: &[u8]) -> Result<Message, u8> {
        if octets.len() > MOST_OCTETS {
            return Err(number::LENGTH);
        }
        let (first, behind) = octets.split_first().ok_or(number::LENGTH)?;
        let message = Message {
            kind: first & 15,
            revision: first >> 4,
            ..Message::default()
        };
        if !is_known(message.kind) {
            return Err(number::UNKNOWN);
        }
        message.with_fields(behind).ok_or(number::MALFORMED)
    }

    /// The message with the octets behind its first one, if they are whole
    /// fields.
    fn with_fields(mut self, mut octets: &[u8]) -> Option<Message> {
        if !has_fields(self.kind) {
            return octets.is_empty().then_some(self);
        }
        self.identification = Branch::take_field(&mut octets)?;
        self.standard = Branch::take_field(&mut octets)?;
        self.non_standard = octets.to_vec();
        let announced = self.identification.npars.contains(&7);
        fits_announcement(octets, announced).then_some(self)
    }

    fn of_codes(kind: u8, revision: u8, codes: &[Code], non_standard: &[u8]) -> Message {
        let mut message = Message {
            kind,
            revision,
            non_standard: non_standard.to_vec(),
            ..Message::default()
        };
        for &code in codes {
            match code.f {
                IDENTIFICATION => message.identification.set(code),
                _ => message.standard.set(code),
            }
        }
        message
    }

    fn codes(&self) -> Vec<u32> {
        let mut codes = self.identification.field_codes(IDENTIFICATION);
        codes.extend(self.standard.field_codes(STANDARD));
        codes
    }

    /// The minimal form.
    fn octets(&self) -> Vec<u8> {
        let mut octets = vec![self.kind | self.revision << 4];
        if has_fields(self.kind) {
            octets.extend(self.identification.field());
            octets.extend(self.standard.field());
            octets.extend(&self.non_standard);
        }
        octets
    }
}

/// Whether the octets are as announced: none, or a well-formed NS.
fn fits_announcement(octets: &[u8], announced: bool) -> bool {
    if announced {
        is_non_standard_field(octets)
    } else {
        octets.is_empty()
    }
}

/// One or more blocks, each a length and so many octets, and nothing else.
fn is_non_standard_field(octets: &[u8]) -> bool {
    let Some((&length, octets)) = octets.split_first() else {
        return false;
    };
    let Some(behind) = octets.get(usize::from(length)..) else {
        return false;
    };
    (2..=63).contains(&length) && (behind.is_empty() || is_non_standard_field(behind))
}

/// The minimal form of a message, if the reader accepts it.
pub fn minimal_form(octets: &[u8]) -> Option<Vec<u8>> {
    let message = Message::of_octets(octets).ok()?;
    Some(message.octets())
}

/// The NS of a message as it came, nothing where it has none; or the refusal.
pub fn non_standard(octets: &[u8]) -> Result<Vec<u8>, u8> {
    let message = Message::of_octets(octets)?;
    Ok(message.non_standard)
}

/// The number with which the reader refuses the octets, if it does.
pub fn refusal(octets: &[u8]) -> Option<u8> {
    Message::of_octets(octets).err()
}

/// An answer of the reader. The list it was lent has so much room, and begins
/// with the codes when it comes back.
#[derive(Debug, Default, PartialEq)]
pub struct Reading {
    pub number: u8,
    pub kind: u8,
    pub revision: u8,
    pub codes: Vec<u32>,
    pub non_standard_place: u16,
    pub non_standard_length: u16,
    pub room: usize,
}

impl Reading {
    fn refused(number: u8, room: usize) -> Reading {
        Reading {
            number,
            room,
            ..Reading::default()
        }
    }

    /// The answer to a message of so many octets that carries all this.
    pub fn success(octets: usize, meaning: &Meaning, room: usize) -> Reading {
        let length = meaning.non_standard.len();
        let place = if length == 0 { 0 } else { octets - length };
        Reading {
            number: number::SUCCESS,
            kind: meaning.kind,
            revision: meaning.revision,
            codes: meaning.codes.clone(),
            non_standard_place: place as u16,
            non_standard_length: length as u16,
            room,
        }
    }

    /// The answer as the probe's reply has it. No number of the list behind
    /// the codes was touched.
    pub fn reply(&self) -> Vec<u8> {
        let row = Row::new().u8(self.number).u8(self.kind).u8(self.revision);
        let row = row.u16(self.codes.len() as u16);
        let row = row.u16(self.non_standard_place);
        let row = row.u16(self.non_standard_length);
        let row = self.codes.iter().fold(row, |row, &code| row.u32(code));
        let others = self.room.saturating_sub(self.codes.len());
        row.octets(&UNTOUCHED.to_le_bytes().repeat(others)).done()
    }
}

/// All that a message carries, as the writer takes it.
#[derive(Clone, Debug, Default, PartialEq)]
pub struct Meaning {
    pub kind: u8,
    pub revision: u8,
    pub codes: Vec<u32>,
    pub non_standard: Vec<u8>,
}

impl Meaning {
    /// The minimal form, or the first refusal.
    fn minimal(&self, room: usize) -> Result<Vec<u8>, u8> {
        let codes: Vec<Code> = self.codes.iter().copied().map(Code::of).collect();
        let set: BTreeSet<Code> = codes.iter().copied().collect();
        let has_parents = |code: &Code| code.parents().all(|parent| set.contains(&parent));
        let is_bare = codes.is_empty() && self.non_standard.is_empty();
        let announced = set.contains(&Code::NON_STANDARD_FIELD);
        // Made of a faulty list too, since its length is looked at last.
        let message = Message::of_codes(self.kind, self.revision, &codes, &self.non_standard);
        let octets = message.octets();
        let demands = [
            (number::ROOM, room >= WRITER_ROOM),
            (number::UNKNOWN, is_known(self.kind)),
            (number::UNKNOWN, self.revision <= MOST_REVISION),
            (number::SHAPE, codes.iter().all(|code| code.is_possible())),
            (number::ORDER, codes.is_sorted_by(|one, next| one < next)),
            (number::PARENT, codes.iter().all(has_parents)),
            (number::NOT_BARE, has_fields(self.kind) || is_bare),
            (
                number::NON_STANDARD,
                fits_announcement(&self.non_standard, announced),
            ),
            (number::TOO_LONG, octets.len() <= MOST_OCTETS),
        ];
        match demands.iter().find(|(_, met)| !met) {
            Some((refusal, _)) => Err(*refusal),
            None => Ok(octets),
        }
    }
}

/// An answer of the writer, with the output as it comes back.
#[derive(Debug, PartialEq)]
pub struct Writing {
    pub number: u8,
    pub count: u16,
    pub out: Vec<u8>,
}

impl Writing {
    fn refused(number: u8, lent: &[u8]) -> Writing {
        Writing {
            number,
            count: 0,
            out: lent.to_vec(),
        }
    }

    pub fn success(octets: &[u8], lent: &[u8]) -> Writing {
        Writing {
            number: number::SUCCESS,
            count: octets.len() as u16,
            out: [octets, &lent[octets.len()..]].concat(),
        }
    }

    /// The answer as the probe's reply has it.
    pub fn reply(&self) -> Vec<u8> {
        let row = Row::new().u8(self.number).u16(self.count);
        row.run(&self.out).done()
    }
}

/// The message reader.
pub fn read(room: usize, octets: &[u8]) -> Reading {
    if room < READER_ROOM {
        return Reading::refused(number::ROOM, room);
    }
    match Message::of_octets(octets) {
        Ok(message) => {
            let meaning = Meaning {
                kind: message.kind,
                revision: message.revision,
                codes: message.codes(),
                non_standard: message.non_standard,
            };
            Reading::success(octets.len(), &meaning, room)
        }
        Err(number) => Reading::refused(number, room),
    }
}

/// The message writer.
pub fn write(meaning: &Meaning, out: &[u8]) -> Writing {
    match meaning.minimal(out.len()) {
        Ok(octets) => Writing::success(&octets, out),
        Err(number) => Writing::refused(number, out),
    }
}
