//! Striking: a message without its unnamed parameters, in minimal form.

use super::code::{Code, STANDARD};
use super::{number, Message, Writing, WRITER_ROOM};

/// The type whose S field keeps its unnamed parameters.
const MODE_SELECT: u8 = 1;

impl Message {
    fn struck(&self) -> Message {
        let keeps_standard = self.kind == MODE_SELECT;
        let stays = |code: &Code| code.is_named() || keeps_standard && code.f == STANDARD;
        let codes = self.codes().into_iter().map(Code::of);
        let kept: Vec<Code> = codes.filter(stays).collect();
        Message::of_codes(self.kind, self.revision, &kept, &self.non_standard)
    }
}

/// The operation of striking.
pub fn strike(octets: &[u8], out: &[u8]) -> Writing {
    if out.len() < WRITER_ROOM {
        return Writing::refused(number::ROOM, out);
    }
    match Message::of_octets(octets) {
        Ok(message) => Writing::success(&message.struck().octets(), out),
        Err(number) => Writing::refused(number, out),
    }
}

/// The struck message, if the octets are a message.
pub fn struck(octets: &[u8]) -> Option<Vec<u8>> {
    let message = Message::of_octets(octets).ok()?;
    Some(message.struck().octets())
}
