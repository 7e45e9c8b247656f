//! Messages whose lists and minimal forms are known beforehand, on paper.

use super::answers::{asked, Rewritten};
use crate::bench::Bench;
use crate::message_checks::named::code;
use crate::random::Random;
use crate::wire::{self, written_out};

pub const NAME: &str = "same meaning: known beforehand";

/// A message, its list with codes as f.s.t.n, and its minimal form.
const KNOWN: [[&str; 3]; 8] = [
    ["22 80 80 80 81 40 C0", "2.1.0.0", "22 80 80 80 81 C0"],
    ["22 80 80 80 81 00 C0", "2.1.0.0", "22 80 80 80 81 C0"],
    ["22 00 80 80 80 81 C0", "2.1.0.0", "22 80 80 80 81 C0"],
    ["22 80 80 80 81 C0", "2.1.0.0", "22 80 80 80 81 C0"],
    ["24", "", "24"],
    ["28", "", "28"],
    [
        "22 C0 80 80 80 02 01 01",
        "1.0.0.7",
        "22 C0 80 80 80 02 01 01",
    ],
    [
        "22 C0 80 80 80 02 01 02",
        "1.0.0.7",
        "22 C0 80 80 80 02 01 02",
    ],
];

pub fn check(bench: &mut Bench) -> Result<(), String> {
    let random = &mut Random::named(NAME);
    let messages = KNOWN.map(|[message, ..]| written_out(message));
    let answers = asked(bench, random, &messages)?;
    for ((message, known), answers) in messages.iter().zip(KNOWN).zip(&answers) {
        as_known(message, known, &Rewritten::due(message)?)?;
        as_known(message, known, &answers.once)?;
        answers.as_due(message)?;
    }
    Ok(())
}

fn as_known(message: &[u8], known: [&str; 3], rewritten: &Rewritten) -> Result<(), String> {
    let [_, list, minimal] = known;
    let codes: Vec<u32> = list.split_whitespace().map(code).collect();
    match rewritten.meaning.codes == codes && rewritten.octets == written_out(minimal) {
        true => Ok(()),
        false => Err(format!(
            "{} should have the list {list} and the minimal form {minimal}, not {:?} and {}",
            wire::hex(message),
            rewritten.meaning.codes,
            wire::hex(&rewritten.octets)
        )),
    }
}

#[cfg(test)]
mod tests {
    use super::*;

    #[test]
    fn known_on_paper() {
        for known in KNOWN {
            let message = written_out(known[0]);
            let due = Rewritten::due(&message).unwrap();
            assert_eq!(as_known(&message, known, &due), Ok(()));
        }
    }

    #[test]
    fn another_form_or_list_is_refused() {
        let message = written_out(KNOWN[0][0]);
        let due = Rewritten::due(&message).unwrap();
        let unchanged = Rewritten {
            octets: message.clone(),
            ..due.clone()
        };
        assert!(as_known(&message, KNOWN[0], &unchanged).is_err());
        let mut longer = due;
        longer.meaning.codes.push(code("2.1.0.1"));
        assert!(as_known(&message, KNOWN[0], &longer).is_err());
    }
}
