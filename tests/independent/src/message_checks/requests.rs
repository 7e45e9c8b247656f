//! Requests to the message reader and the message writer, and their cases.

use crate::bench::{Case, Outcome};
use crate::message::{self, Meaning};
use crate::random::Random;
use crate::wire::{Row, MOST_LENT};

/// Puts octets to an operation on a message.
pub type Put = fn(&mut Random, &[u8]) -> Case;

/// A family of messages, put to the operation that is given.
pub type Family = fn(&mut Random, Put) -> Vec<Case>;

const READER: &str = "message reader";
const WRITER: &str = "message writer";
const READER_OPERATION: u8 = 3;
const WRITER_OPERATION: u8 = 4;

/// The least room for a list, in numbers, and for a message, in octets.
pub const LIST_ROOM: usize = 448;
pub const MESSAGE_ROOM: usize = 64;

/// The most numbers a list may have in a request.
pub const MOST_NUMBERS: usize = 512;

pub const MOST_OCTETS: usize = 64;

/// The types of MS, CL and CLR.
pub const WITH_FIELDS: [u8; 3] = [1, 2, 3];

/// The types of ACK and NAK.
pub const BARE: [u8; 6] = [4, 5, 8, 9, 10, 11];

pub const UNKNOWN: [u8; 7] = [0, 6, 7, 12, 13, 14, 15];

pub fn outcomes() -> Vec<Outcome> {
    let of = |operation| move |number| Outcome { operation, number };
    let reader = (0..=4).map(of(READER));
    let writer = [0, 1, 3].into_iter().chain(5..=10).map(of(WRITER));
    reader.chain(writer).collect()
}

pub fn reader_request(room: usize, message: &[u8]) -> Vec<u8> {
    let row = Row::new().u8(READER_OPERATION).u16(room as u16);
    row.run(message).done()
}

pub fn writer_request(meaning: &Meaning, out: &[u8]) -> Vec<u8> {
    let row = Row::new().u8(WRITER_OPERATION);
    let row = row.u8(meaning.kind).u8(meaning.revision);
    let row = row.u16(meaning.codes.len() as u16);
    let codes = meaning.codes.iter();
    let row = codes.fold(row, |row, &code| row.u32(code));
    row.run(&meaning.non_standard).run(out).done()
}

pub fn reader_case(room: usize, message: &[u8]) -> Case {
    let answer = message::read(room, message);
    let outcome = Outcome {
        operation: READER,
        number: answer.number,
    };
    Case::new(reader_request(room, message), answer.reply(), outcome)
}

pub fn writer_case(meaning: &Meaning, out: &[u8]) -> Case {
    let answer = message::write(meaning, out);
    let outcome = Outcome {
        operation: WRITER,
        number: answer.number,
    };
    Case::new(writer_request(meaning, out), answer.reply(), outcome)
}

/// The octets given to the reader with enough room for the list.
pub fn heard(random: &mut Random, message: &[u8]) -> Case {
    let room = random.pick(&[LIST_ROOM, LIST_ROOM, LIST_ROOM, 449, 450, MOST_NUMBERS]);
    reader_case(room, message)
}

/// The meaning given to the writer with an output that is large enough and
/// filled at random.
pub fn told(random: &mut Random, meaning: &Meaning) -> Case {
    writer_case(meaning, &large_output(random))
}

pub fn large_output(random: &mut Random) -> Vec<u8> {
    let room = random.pick(&[MESSAGE_ROOM, MESSAGE_ROOM, 65, 66, 100, 128, MOST_LENT]);
    random.octets(room)
}

/// A meaning of this type with any revision and nothing else.
pub fn bare(random: &mut Random, kind: u8) -> Meaning {
    Meaning {
        kind,
        revision: random.below(16) as u8,
        ..Meaning::default()
    }
}

/// The list in an MS, CL or CLR without NS.
pub fn with_list(random: &mut Random, codes: Vec<u32>) -> Meaning {
    let kind = random.pick(&WITH_FIELDS);
    Meaning {
        codes,
        ..bare(random, kind)
    }
}
