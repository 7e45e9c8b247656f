//! Calls of the functions: what is given, and what must come back.

use super::functions::{self, Returned};
use crate::frame;
use crate::message;
use crate::random::Random;
use crate::score::Outcome;
use crate::wire::{hex, Fields};
use std::fmt;

pub const FRAME_READER: &str = "frame reader";
pub const FRAME_WRITER: &str = "frame writer";
pub const MESSAGE_READER: &str = "message reader";

/// The octets of a number in a list.
pub const NUMBER: usize = 4;

pub enum Call {
    ReadFrame {
        run: Vec<u8>,
        bits: usize,
        out: Vec<u8>,
    },
    WriteFrame {
        information: Vec<u8>,
        opening: usize,
        closing: usize,
        out: Vec<u8>,
    },
    ReadMessage {
        message: Vec<u8>,
        list: Vec<u8>,
    },
}

/// A buffer of so many octets, filled at random but quickly.
pub fn patterned(random: &mut Random, length: usize) -> Vec<u8> {
    let pattern = random.number().to_le_bytes();
    let octets = pattern.iter().cycle().zip(0..length);
    octets
        .map(|(octet, place)| octet ^ (place / 8) as u8)
        .collect()
}

impl Call {
    pub fn read_frame(random: &mut Random, run: &[u8], bits: usize, room: usize) -> Call {
        Call::ReadFrame {
            run: run.to_vec(),
            bits,
            out: patterned(random, room),
        }
    }

    pub fn write_frame(
        random: &mut Random,
        information: &[u8],
        (opening, closing): (usize, usize),
        room: usize,
    ) -> Call {
        Call::WriteFrame {
            information: information.to_vec(),
            opening,
            closing,
            out: patterned(random, room),
        }
    }

    /// The list has so many octets.
    pub fn read_message(random: &mut Random, message: &[u8], room: usize) -> Call {
        Call::ReadMessage {
            message: message.to_vec(),
            list: patterned(random, room),
        }
    }

    /// The call that does what a request asks of the probe.
    pub fn of_request(random: &mut Random, request: &[u8]) -> Option<Call> {
        let mut fields = Fields::of(request);
        let call = match fields.u8()? {
            1 => {
                let (bits, run) = (fields.u32()?, fields.run()?);
                Call::ReadFrame {
                    run: run.to_vec(),
                    bits: bits as usize,
                    out: fields.run()?.to_vec(),
                }
            }
            2 => {
                let flags = [fields.u8()?, fields.u8()?].map(usize::from);
                Call::WriteFrame {
                    information: fields.run()?.to_vec(),
                    opening: flags[0],
                    closing: flags[1],
                    out: fields.run()?.to_vec(),
                }
            }
            3 => {
                let room = NUMBER * usize::from(fields.u16()?);
                Call::read_message(random, fields.run()?, room)
            }
            _ => return None,
        };
        fields.is_empty().then_some(call)
    }

    /// What the library makes of the call.
    pub fn returned(&self) -> Returned {
        match self {
            Call::ReadFrame { run, bits, out } => functions::read_frame(run, *bits, out),
            Call::WriteFrame {
                information,
                opening,
                closing,
                out,
            } => functions::write_frame(information, *opening, *closing, out),
            Call::ReadMessage { message, list } => functions::read_message(message, list),
        }
    }

    /// What must come back.
    pub fn due(&self) -> Returned {
        let (numbers, buffer) = match self {
            Call::ReadFrame { run, bits, out } => of_frame(frame::read(*bits, run, out)),
            Call::WriteFrame {
                information,
                opening,
                closing,
                out,
            } => of_frame(frame::write(*opening, *closing, information, out)),
            Call::ReadMessage { message, list } => {
                of_message(message::read(list.len() / NUMBER, message), list)
            }
        };
        Returned {
            numbers,
            buffer,
            rest_untouched: true,
        }
    }

    pub fn outcome(&self, returned: &Returned) -> Outcome {
        let operation = match self {
            Call::ReadFrame { .. } => FRAME_READER,
            Call::WriteFrame { .. } => FRAME_WRITER,
            Call::ReadMessage { .. } => MESSAGE_READER,
        };
        let number = returned.numbers[0] as u8;
        Outcome { operation, number }
    }
}

type Parts = (Vec<u32>, Vec<u8>);

fn of_frame(answer: frame::Answer) -> Parts {
    let numbers = vec![u32::from(answer.number), u32::from(answer.count)];
    (numbers, answer.out)
}

/// The codes stand at the front of the list, each with its lowest octet
/// first.
fn of_message(reading: message::Reading, list: &[u8]) -> Parts {
    let numbers = vec![
        u32::from(reading.number),
        u32::from(reading.kind),
        u32::from(reading.revision),
        reading.codes.len() as u32,
        u32::from(reading.non_standard_place),
        u32::from(reading.non_standard_length),
    ];
    let mut buffer: Vec<u8> = reading
        .codes
        .iter()
        .flat_map(|code| code.to_le_bytes())
        .collect();
    buffer.extend(&list[buffer.len()..]);
    (numbers, buffer)
}

impl fmt::Display for Call {
    fn fmt(&self, f: &mut fmt::Formatter) -> fmt::Result {
        match self {
            Call::ReadFrame { run, bits, out } => {
                write!(f, "run {}, {bits} bits, output {}", hex(run), hex(out))
            }
            Call::WriteFrame {
                information,
                opening,
                closing,
                out,
            } => write!(
                f,
                "information {}, flags {opening} and {closing}, output {}",
                hex(information),
                hex(out)
            ),
            Call::ReadMessage { message, list } => {
                write!(f, "message {}, list {}", hex(message), hex(list))
            }
        }
    }
}

#[cfg(test)]
mod tests {
    use super::*;
    use crate::wire::Row;

    #[test]
    fn codes_stand_lowest_octet_first() {
        let call = Call::ReadMessage {
            message: vec![0x22, 0x80, 0x80, 0x80, 0x81, 0x00, 0xD0],
            list: vec![0x55; 1793],
        };
        let due = call.due();
        assert_eq!(due.numbers, [0, 2, 2, 2, 0, 0]);
        let codes = [0, 0, 4, 16, 11, 0, 4, 16];
        assert_eq!(due.buffer[..8], codes);
        assert_eq!(due.buffer[8..], [0x55; 1785]);
    }

    #[test]
    fn requests_become_calls() {
        let random = &mut Random::named("requests");
        let request = Row::new().u8(2).u8(3).u8(1).run(&[9]).run(&[5, 6]).done();
        match Call::of_request(random, &request) {
            Some(Call::WriteFrame {
                information,
                opening,
                closing,
                out,
            }) => {
                assert_eq!((opening, closing), (3, 1));
                assert_eq!((information, out), (vec![9], vec![5, 6]));
            }
            _ => panic!("no call of the writer"),
        }
        assert!(Call::of_request(random, &request[1..]).is_none());
    }
}
