//! The positions of frames, messages and striking.

use super::Position;
use crate::bench::Case;
use crate::frame;
use crate::frame_checks::{reader_case as frame_read, writer_case as frame_written};
use crate::message::{Meaning, Reading, Writing};
use crate::message_checks::requests::{reader_case, writer_case, LIST_ROOM, MESSAGE_ROOM};
use crate::striking_checks;
use crate::wire::{written_out, Row};

pub const POSITIONS: [Position; 9] = [
    Position {
        words: "22 80 80 80 80: CL, empty lists",
        cases: || read_and_written("22 80 80 80 80", CL, &[], "22 80 80 80 80"),
    },
    Position {
        words: "one octet 00 more: 4",
        cases: || refused("22 80 80 80 80 00", 4),
    },
    Position {
        words: "22 80 80 80 81: 4",
        cases: || refused("22 80 80 80 81", 4),
    },
    Position {
        words: "22 80 80 80 81 80: 4",
        cases: || refused("22 80 80 80 81 80", 4),
    },
    Position {
        words: "22 80 80 80 81 40 C0: s=1.0.0, minimal 22 80 80 80 81 C0",
        cases: || {
            let data = 268_697_600;
            read_and_written("22 80 80 80 81 40 C0", CL, &[data], "22 80 80 80 81 C0")
        },
    },
    Position {
        words: "32 91 80 80 21 84 02 D0 C0 41 42 C4 strikes to 32 81 80 80 A1 02 D0 C0",
        cases: || {
            struck(
                "32 91 80 80 21 84 02 D0 C0 41 42 C4",
                "32 81 80 80 A1 02 D0 C0",
            )
        },
    },
    Position {
        words: "code 2.1.0.11 is 268697611",
        cases: || {
            let codes = [268_697_600, 268_697_611];
            read_and_written("22 80 80 80 81 00 D0", CL, &codes, "22 80 80 80 81 00 D0")
        },
    },
    Position {
        words: "24 is ACK(1) of revision 2; 2D is refused with 3",
        cases: || {
            let mut cases = read_and_written("24", ACK_1, &[], "24")?;
            cases.extend(refused("2D", 3)?);
            Ok(cases)
        },
    },
    Position {
        words: "FF FF becomes 19 bits",
        cases: nineteen_bits,
    },
];

const CL: u8 = 2;
const ACK_1: u8 = 4;
const REVISION: u8 = 2;

/// What every output is filled with.
const FILLER: u8 = 0x55;

fn refused(message: &str, number: u8) -> Result<Vec<Case>, String> {
    let octets = written_out(message);
    let due = Row::new().u8(number).octets(&[0; 8]);
    let untouched = 0xDEAD_BEEF_u32.to_le_bytes().repeat(LIST_ROOM);
    let due = due.octets(&untouched).done();
    Ok(vec![reader_case(LIST_ROOM, &octets).known(&due)?])
}

/// The message read, what it carries written, and that read again.
fn read_and_written(
    message: &str,
    kind: u8,
    codes: &[u32],
    minimal: &str,
) -> Result<Vec<Case>, String> {
    let meaning = Meaning {
        kind,
        revision: REVISION,
        codes: codes.to_vec(),
        ..Meaning::default()
    };
    let read = |octets: &[u8]| {
        let reading = Reading::success(octets.len(), &meaning, LIST_ROOM);
        reader_case(LIST_ROOM, octets).known(&reading.reply())
    };
    let out = [FILLER; MESSAGE_ROOM];
    let minimal = written_out(minimal);
    let writing = Writing::success(&minimal, &out);
    Ok(vec![
        read(&written_out(message))?,
        writer_case(&meaning, &out).known(&writing.reply())?,
        read(&minimal)?,
    ])
}

fn struck(message: &str, due: &str) -> Result<Vec<Case>, String> {
    let out = [FILLER; MESSAGE_ROOM];
    let writing = Writing::success(&written_out(due), &out);
    let case = striking_checks::case(&written_out(message), &out);
    Ok(vec![case.known(&writing.reply())?])
}

/// FF FF leave nothing in the FCS register, so that the FCS is FF FF too. The
/// first 19 bits between the flags are those of the information.
const FRAME: [&str; 5] = [
    "01111110",
    "01111110",
    "1111101111101111101",
    "1111011111011111011",
    "01111110",
];

fn nineteen_bits() -> Result<Vec<Case>, String> {
    let bits: Vec<bool> = FRAME.concat().chars().map(|bit| bit == '1').collect();
    let run = frame::packed(&bits);
    let over = |octets: &[u8], lent: &[u8]| [octets, &lent[octets.len()..]].concat();
    let out = [FILLER; 88];
    let written = Row::new().u8(0).u16(bits.len() as u16);
    let written = written.run(&over(&run, &out)).done();
    let read = Row::new().u8(0).u16(2).run(&over(&[0xFF; 2], &out)).done();
    Ok(vec![
        frame_written(2, 1, &[0xFF; 2], &out).known(&written)?,
        frame_read(bits.len() as u32, &run, &out).known(&read)?,
    ])
}
