//! The listing of an information field: lines of a key and a value.

use crate::message::{self, Code};
use crate::station::words::Kind;

/// So many octets are read and no more.
pub const MOST_READ: usize = 65;

const LIST_ROOM: usize = 448;

/// All that is printed for this input.
pub fn listing(input: &[u8]) -> String {
    let octets = &input[..input.len().min(MOST_READ)];
    let reading = message::read(LIST_ROOM, octets);
    let Some(kind) = Kind::of_octet(reading.kind) else {
        return format!("refusal={}\n", reading.number);
    };
    let codes: Vec<Code> = reading.codes.into_iter().map(Code::of).collect();
    let lines = [
        ("type", kind.name().to_string()),
        ("rev", reading.revision.to_string()),
        ("i", of_field(&codes, 1)),
        ("s", of_field(&codes, 2)),
        ("ns", reading.non_standard_length.to_string()),
    ];
    let lines = lines.map(|(key, value)| format!("{key}={value}\n"));
    lines.concat()
}

fn of_field(codes: &[Code], f: u32) -> String {
    let here = codes.iter().filter(|code| code.f == f);
    let words: Vec<String> = here
        .map(|code| format!("{}.{}.{}", code.s, code.t, code.n))
        .collect();
    words.join(",")
}
