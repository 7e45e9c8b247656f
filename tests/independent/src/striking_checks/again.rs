//! What the probe has struck goes to it once more, and must come back as it
//! was.

use super::requests::request;
use crate::bench::{same_replies, Bench, Check};
use crate::message::Writing;
use crate::message_checks::layout::Layout;
use crate::message_checks::message_written;
use crate::message_checks::requests::{large_output, BARE};
use crate::random::Random;

const TWICE: &str = "striking: twice is once";

pub fn checks() -> Vec<Check> {
    vec![Check::new(TWICE, twice)]
}

fn some_messages(random: &mut Random) -> Vec<Vec<u8>> {
    let mut messages: Vec<Vec<u8>> = BARE.map(|kind| vec![0x20 | kind]).to_vec();
    for _ in 0..2000 {
        messages.push(Layout::mixed(random).octets());
        messages.push(Layout::any(random).octets());
    }
    messages
}

fn twice(bench: &mut Bench) -> Result<(), String> {
    let random = &mut Random::named(TWICE);
    let messages = some_messages(random);
    let once: Vec<Vec<u8>> = messages
        .iter()
        .map(|message| request(message, &large_output(random)))
        .collect();
    let mut again = Vec::new();
    let mut expected = Vec::new();
    for reply in bench.ask(&once)? {
        let struck = message_written(&reply)?;
        let out = large_output(random);
        again.push(request(struck, &out));
        expected.push(Writing::success(struck, &out).reply());
    }
    let replies = bench.ask(&again)?;
    same_replies(&again, &expected, &replies)
}
