//! What the probe reads of messages and writes of what it read, once and
//! once more.

use crate::bench::Bench;
use crate::message::{self, Meaning};
use crate::message_checks::message_written;
use crate::message_checks::requests::{large_output, writer_request, LIST_ROOM};
use crate::message_checks::round_trips::{meaning_read, reading_requests};
use crate::random::Random;
use crate::wire;

/// What was read of a message, and the octets that were written of it.
#[derive(Clone, Debug, PartialEq)]
pub struct Rewritten {
    pub meaning: Meaning,
    pub octets: Vec<u8>,
}

impl Rewritten {
    /// What the implementation here makes of the message.
    pub fn due(message: &[u8]) -> Result<Rewritten, String> {
        let reply = message::read(LIST_ROOM, message).reply();
        let meaning = meaning_read(message, &reply)?;
        let octets = message::minimal_form(message).unwrap_or_default();
        Ok(Rewritten { meaning, octets })
    }

    pub fn shown(&self) -> String {
        let octets = wire::hex(&self.octets);
        format!("read as {:?} and written as {octets}", self.meaning.codes)
    }
}

/// What the probe makes of a message, and of the octets that it wrote then.
#[derive(Clone, Debug)]
pub struct Answers {
    pub once: Rewritten,
    pub twice: Rewritten,
}

/// Puts the messages to the probe's reader, what it read to its writer, and
/// what that wrote to both once more.
pub fn asked(
    bench: &mut Bench,
    random: &mut Random,
    messages: &[Vec<u8>],
) -> Result<Vec<Answers>, String> {
    let once = rewritten(bench, random, messages)?;
    let minimal: Vec<Vec<u8>> = once.iter().map(|once| once.octets.clone()).collect();
    let twice = rewritten(bench, random, &minimal)?;
    let answers = once.into_iter().zip(twice);
    Ok(answers
        .map(|(once, twice)| Answers { once, twice })
        .collect())
}

fn rewritten(
    bench: &mut Bench,
    random: &mut Random,
    messages: &[Vec<u8>],
) -> Result<Vec<Rewritten>, String> {
    let replies = bench.ask(&reading_requests(messages))?;
    let mut meanings = Vec::new();
    for (message, reply) in messages.iter().zip(&replies) {
        meanings.push(meaning_read(message, reply)?);
    }
    let writing: Vec<Vec<u8>> = meanings
        .iter()
        .map(|meaning| writer_request(meaning, &large_output(random)))
        .collect();
    let replies = bench.ask(&writing)?;
    let with_octets = |(meaning, reply): (Meaning, &Vec<u8>)| {
        let octets = message_written(reply)?.to_vec();
        Ok(Rewritten { meaning, octets })
    };
    meanings
        .into_iter()
        .zip(&replies)
        .map(with_octets)
        .collect()
}
