//! Messages (V.8 bis 8): what a message is made of, and the message reader.

use crate::tree::{self, Sink};

pub const MOST_OCTETS: usize = 64;
pub const LIST_ROOM: usize = 448;

pub const MS: u8 = 1;
pub const CL: u8 = 2;
pub const CLR: u8 = 3;
pub const ACK_1: u8 = 4;
pub const ACK_2: u8 = 5;
pub const NAK_1: u8 = 8;
pub const NAK_2: u8 = 9;
pub const NAK_3: u8 = 10;
pub const NAK_4: u8 = 11;

#[derive(Clone, Copy)]
pub enum Refusal {
    BadLent = 1,
    BadSize = 2,
    UnknownType = 3,
    Malformed = 4,
}

/// A message's type, and where its S and what is behind that begin.
pub struct Parts {
    pub kind: u8,
    pub standard: usize,
    pub tail: usize,
}

pub fn is_known(kind: u8) -> bool {
    matches!(kind, MS..=ACK_2 | NAK_1..=NAK_4)
}

/// Whether a message with fields announces NS.
fn has_ns(message: &[u8]) -> bool {
    message[1] & 0x40 != 0
}

/// Whether octets are NS blocks, one or more.
pub fn is_ns(octets: &[u8]) -> bool {
    let mut rest = octets;
    while let [size @ 2..=63, more @ ..] = rest {
        match more.get(usize::from(*size)..) {
            Some([]) => return true,
            Some(behind) => rest = behind,
            None => return false,
        }
    }
    false
}

/// Checks a message, and gives its parts.
pub fn check(message: &[u8]) -> Result<Parts, Refusal> {
    let size = message.len();
    if size == 0 || size > MOST_OCTETS {
        return Err(Refusal::BadSize);
    }
    let kind = message[0] & 15;
    if !is_known(kind) {
        return Err(Refusal::UnknownType);
    }
    if kind > CLR {
        return if size == 1 {
            Ok(Parts {
                kind,
                standard: 1,
                tail: 1,
            })
        } else {
            Err(Refusal::Malformed)
        };
    }
    let mut octets = message[1..].iter();
    tree::check_field(&mut octets).ok_or(Refusal::Malformed)?;
    let standard = size - octets.len();
    tree::check_field(&mut octets).ok_or(Refusal::Malformed)?;
    let tail = size - octets.len();
    let fine = if has_ns(message) {
        is_ns(octets.as_slice())
    } else {
        tail == size
    };
    if fine {
        Ok(Parts {
            kind,
            standard,
            tail,
        })
    } else {
        Err(Refusal::Malformed)
    }
}

/// What the message reader tells beside the codes.
pub struct Message {
    pub kind: u8,
    pub revision: u8,
    pub ns_at: usize,
    pub ns_length: usize,
}

/// Reads a message; its codes go into the sink, if it is not refused.
pub fn read(message: &[u8], sink: &mut impl Sink) -> Result<Message, Refusal> {
    let parts = check(message)?;
    let (kind, revision) = (parts.kind, message[0] >> 4);
    if kind > CLR {
        return Ok(Message {
            kind,
            revision,
            ns_at: 0,
            ns_length: 0,
        });
    }
    let mut octets = message[1..].iter();
    let filled = tree::fill_field(&mut octets, tree::IDENTIFICATION, sink)
        .and_then(|()| tree::fill_field(&mut octets, tree::STANDARD, sink));
    debug_assert!(filled.is_some());
    let ns_at = if has_ns(message) { parts.tail } else { 0 };
    Ok(Message {
        kind,
        revision,
        ns_at,
        ns_length: message.len() - parts.tail,
    })
}

/// Codes as numbers.
pub struct Numbers<'a> {
    list: core::slice::IterMut<'a, u32>,
}

impl<'a> Numbers<'a> {
    /// None where the list is too small.
    pub fn new(list: &'a mut [u32]) -> Option<Self> {
        list.get_mut(..LIST_ROOM).map(|list| Numbers {
            list: list.iter_mut(),
        })
    }

    pub fn count(&self) -> usize {
        LIST_ROOM - self.list.len()
    }
}

impl Sink for Numbers<'_> {
    fn put(&mut self, code: u32) {
        if let Some(place) = self.list.next() {
            *place = code;
        }
    }
}

/// Codes as four octets each, lowest first.
pub struct Fours<'a> {
    list: core::slice::ChunksExactMut<'a, u8>,
}

impl<'a> Fours<'a> {
    /// None where the list is too small.
    pub fn new(list: &'a mut [u8]) -> Option<Self> {
        list.get_mut(..4 * LIST_ROOM).map(|list| Fours {
            list: list.chunks_exact_mut(4),
        })
    }

    pub fn count(&self) -> usize {
        LIST_ROOM - self.list.len()
    }
}

impl Sink for Fours<'_> {
    fn put(&mut self, code: u32) {
        if let Some(place) = self.list.next() {
            place.copy_from_slice(&code.to_le_bytes());
        }
    }
}
