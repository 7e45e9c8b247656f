//! What a station takes from an MS, CL or CLR that it hears.

use super::words::Kind;
use crate::message::{self, Code, Parameters};

/// The positions of Table 5-1.
pub const V8: u32 = 1;
pub const SHORT_V8: u32 = 2;
pub const ACK: u32 = 4;

/// The numbers a reader's list must have room for.
const LIST_ROOM: usize = 448;

pub struct Far {
    pub kind: Kind,
    pub v8: bool,
    pub short_v8: bool,
    pub asks_ack: bool,
    /// The S field in minimal form, struck in a CL or CLR.
    pub standard: Vec<u8>,
    pub parameters: Parameters,
}

impl Far {
    /// The message in the octets, if it is an MS, CL or CLR.
    pub fn of_octets(octets: &[u8]) -> Option<Far> {
        let struck = message::struck(octets)?;
        let place = message::standard_place(&struck)?;
        let reading = message::read(LIST_ROOM, &struck);
        let end = struck.len() - usize::from(reading.non_standard_length);
        let identifies = |n| reading.codes.contains(&Code::new(1, 0, 0, n).number());
        let standard = struck[place..end].to_vec();
        Some(Far {
            kind: Kind::of_octet(struck[0])?,
            v8: identifies(V8),
            short_v8: identifies(SHORT_V8),
            asks_ack: identifies(ACK),
            parameters: message::minimal_parameters(&standard)?,
            standard,
        })
    }

    pub fn is_list(&self) -> bool {
        self.kind != Kind::Ms
    }
}
