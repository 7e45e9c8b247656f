//! The stored frames made by another program: both writers must make their
//! bits, both readers must give their information back.

use super::runs::*;
use crate::bench::Bench;
use crate::random::Random;
use crate::wire;
use std::path::Path;

/// Under this number the stored frames would prove little.
const FEWEST_FRAMES: usize = 100;

#[derive(Debug, PartialEq)]
struct StoredFrame {
    opening: u8,
    closing: u8,
    information: Vec<u8>,
    bits: u16,
    octets: Vec<u8>,
}

impl StoredFrame {
    fn parse(line: &str) -> Option<StoredFrame> {
        let columns: Vec<&str> = line.split_whitespace().collect();
        let [opening, closing, information, bits, octets] = columns[..] else {
            return None;
        };
        let frame = StoredFrame {
            opening: opening.parse().ok()?,
            closing: closing.parse().ok()?,
            information: wire::from_hex(information)?,
            bits: bits.parse().ok()?,
            octets: wire::from_hex(octets)?,
        };
        let consistent = frame.octets.len() == usize::from(frame.bits).div_ceil(8);
        consistent.then_some(frame)
    }
}

fn stored_frames(file: &Path) -> Result<Vec<StoredFrame>, String> {
    let text = std::fs::read_to_string(file)
        .map_err(|error| format!("{} cannot be read: {error}", file.display()))?;
    let lines = text.lines().filter(|line| !line.starts_with('#'));
    let frames: Result<Vec<StoredFrame>, String> = lines
        .map(|line| StoredFrame::parse(line).ok_or(format!("no frame: {line}")))
        .collect();
    frames.and_then(|frames| match frames.len() {
        ..FEWEST_FRAMES => Err(format!("only {} frames stored", frames.len())),
        _ => Ok(frames),
    })
}

pub fn check(bench: &mut Bench, file: &Path) -> Result<(), String> {
    let random = &mut Random::named("stored vectors");
    let frames = stored_frames(file)?;
    let mut cases = Vec::new();
    for frame in &frames {
        let out = random.octets(100);
        let writer = writer_case(frame.opening, frame.closing, &frame.information, &out);
        must_be(
            &writer.expected,
            &reply(frame.bits, &frame.octets, &out),
            frame,
        )?;
        let reader = reader_case(u32::from(frame.bits), &frame.octets, &out);
        let octets = frame.information.len() as u16;
        must_be(
            &reader.expected,
            &reply(octets, &frame.information, &out),
            frame,
        )?;
        cases.extend([writer, reader]);
    }
    bench.compare(&cases)
}

/// The reply of success that writes the octets into the output lent.
fn reply(count: u16, octets: &[u8], lent: &[u8]) -> Vec<u8> {
    let out = [octets, &lent[octets.len()..]].concat();
    wire::Row::new().u8(0).u16(count).run(&out).done()
}

fn must_be(own: &[u8], stored: &[u8], frame: &StoredFrame) -> Result<(), String> {
    if own == stored {
        return Ok(());
    }
    Err(format!(
        "the comparing program itself differs from the stored frame of {}: expected {}, got {}",
        wire::hex(&frame.information),
        wire::hex(stored),
        wire::hex(own)
    ))
}

#[cfg(test)]
mod tests {
    use super::*;

    #[test]
    fn a_line_is_a_frame() {
        let frame = StoredFrame::parse("2 1 88 49 7e7e8838f8fc00").unwrap();
        assert_eq!((frame.opening, frame.closing, frame.bits), (2, 1, 49));
        assert_eq!(frame.information, [0x88]);
        assert_eq!(frame.octets.len(), 7);
    }

    #[test]
    fn other_lines_are_none() {
        assert_eq!(StoredFrame::parse("2 1 88 49"), None);
        assert_eq!(StoredFrame::parse("2 1 88 48 7e7e8838f8fc00"), None);
        assert_eq!(StoredFrame::parse("2 1 8x 49 7e7e8838f8fc00"), None);
    }
}
