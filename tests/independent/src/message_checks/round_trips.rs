//! Round trips through the probe itself: what its writer made goes to its
//! reader, and what its reader found goes to its writer.

use super::layout::Layout;
use super::requests::*;
use crate::bench::{same_replies, Bench, Check};
use crate::message::{self, Meaning, Reading, Writing};
use crate::random::Random;
use crate::wire::{self, Fields};

pub fn checks() -> Vec<Check> {
    vec![
        Check::new(WRITE_THEN_READ, write_then_read),
        Check::new(READ_THEN_WRITE, read_then_write),
    ]
}

const WRITE_THEN_READ: &str = "message writer, then message reader";
const READ_THEN_WRITE: &str = "message reader, then message writer, then reader";

/// The message in a writer's reply of success.
pub fn message_written(reply: &[u8]) -> Result<&[u8], String> {
    let mut fields = Fields::of(reply);
    let parts = (fields.u8(), fields.u16(), fields.run(), fields.is_empty());
    let message = match parts {
        (Some(0), Some(octets), Some(out), true) => out.get(..usize::from(octets)),
        _ => None,
    };
    message.ok_or_else(|| no_success("writer", reply))
}

/// All that the message carries, by a reader's reply of success.
pub fn meaning_read(message: &[u8], reply: &[u8]) -> Result<Meaning, String> {
    let mut fields = Fields::of(reply);
    let meaning = match fields.u8() {
        Some(0) => fields_of_success(message, &mut fields),
        _ => None,
    };
    meaning.ok_or_else(|| no_success("reader", reply))
}

fn fields_of_success(message: &[u8], fields: &mut Fields) -> Option<Meaning> {
    let (kind, revision) = (fields.u8()?, fields.u8()?);
    let count = fields.u16()?;
    let place = usize::from(fields.u16()?);
    let length = usize::from(fields.u16()?);
    let codes: Option<Vec<u32>> = (0..count).map(|_| fields.u32()).collect();
    Some(Meaning {
        kind,
        revision,
        codes: codes?,
        non_standard: message.get(place..place + length)?.to_vec(),
    })
}

fn no_success(operation: &str, reply: &[u8]) -> String {
    format!("the {operation}'s reply {} is no success", wire::hex(reply))
}

/// What may be written: mostly MS, CL and CLR, now and then ACK and NAK.
fn any_meaning(random: &mut Random) -> Meaning {
    if random.below(12) == 0 {
        let kind = random.pick(&BARE);
        return bare(random, kind);
    }
    Layout::any(random).meaning()
}

fn write_then_read(bench: &mut Bench) -> Result<(), String> {
    let random = &mut Random::named(WRITE_THEN_READ);
    let meanings: Vec<Meaning> = (0..1500).map(|_| any_meaning(random)).collect();
    let writing: Vec<Vec<u8>> = meanings
        .iter()
        .map(|meaning| writer_request(meaning, &large_output(random)))
        .collect();
    let written = bench.ask(&writing)?;
    let mut messages = Vec::new();
    for reply in &written {
        messages.push(message_written(reply)?.to_vec());
    }
    must_read_as(bench, &messages, &meanings)
}

/// Puts the messages to the probe's reader, which must find the meanings.
fn must_read_as(
    bench: &mut Bench,
    messages: &[Vec<u8>],
    meanings: &[Meaning],
) -> Result<(), String> {
    let requests = reading_requests(messages);
    let mut expected = Vec::new();
    for (message, meaning) in messages.iter().zip(meanings) {
        if !message.ends_with(&meaning.non_standard) {
            return Err(format!("NS is not as it was: {}", wire::hex(message)));
        }
        expected.push(Reading::success(message.len(), meaning, LIST_ROOM).reply());
    }
    let replies = bench.ask(&requests)?;
    same_replies(&requests, &expected, &replies)
}

pub fn reading_requests(messages: &[Vec<u8>]) -> Vec<Vec<u8>> {
    let request = |message: &Vec<u8>| reader_request(LIST_ROOM, message);
    messages.iter().map(request).collect()
}

/// Messages of which most are not minimal; some are damaged ones that are
/// still messages.
fn any_messages(random: &mut Random) -> Vec<Vec<u8>> {
    let mut messages: Vec<Vec<u8>> = BARE.map(|kind| vec![kind]).to_vec();
    for _ in 0..1200 {
        let message = Layout::any(random).octets();
        let mut damaged = message.clone();
        damaged[random.below(message.len())] ^= 1 << random.below(8);
        messages.push(message);
        if message::minimal_form(&damaged).is_some() {
            messages.push(damaged);
        }
    }
    messages
}

/// What the probe reads and writes again must be the minimal form, and that
/// must be read as the same.
fn read_then_write(bench: &mut Bench) -> Result<(), String> {
    let random = &mut Random::named(READ_THEN_WRITE);
    let messages = any_messages(random);
    let replies = bench.ask(&reading_requests(&messages))?;
    let mut meanings = Vec::new();
    let mut minimal = Vec::new();
    for (message, reply) in messages.iter().zip(&replies) {
        meanings.push(meaning_read(message, reply)?);
        minimal.extend(message::minimal_form(message));
    }
    must_write_as(bench, random, &meanings, &minimal)?;
    must_read_as(bench, &minimal, &meanings)
}

/// Puts the meanings to the probe's writer, which must make the messages.
fn must_write_as(
    bench: &mut Bench,
    random: &mut Random,
    meanings: &[Meaning],
    messages: &[Vec<u8>],
) -> Result<(), String> {
    let mut requests = Vec::new();
    let mut expected = Vec::new();
    for (meaning, message) in meanings.iter().zip(messages) {
        let out = large_output(random);
        requests.push(writer_request(meaning, &out));
        expected.push(Writing::success(message, &out).reply());
    }
    let replies = bench.ask(&requests)?;
    same_replies(&requests, &expected, &replies)
}
