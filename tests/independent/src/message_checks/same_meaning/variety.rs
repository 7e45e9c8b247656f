//! The kinds of pairs that a family must have, so that it fails where what is
//! drawn is too poor.

use super::pairs::{Difference, Pair};
use crate::message::{self, Code};
use crate::message_checks::mixed::FIELDS;
use crate::message_checks::requests::WITH_FIELDS;
use std::collections::{BTreeMap, BTreeSet};

/// Each kind has to be at least one in so many pairs.
const ONE_IN: usize = 40;

/// Whether no pair occurs twice and each kind occurs often enough.
pub fn each_often_enough(kinds: &[String], pairs: &[Pair]) -> Result<(), String> {
    let different: BTreeSet<&[Vec<u8>; 2]> = pairs.iter().map(|pair| &pair.messages).collect();
    let mut times: BTreeMap<String, usize> = BTreeMap::new();
    for kind in pairs.iter().flat_map(kinds_of) {
        *times.entry(kind).or_default() += 1;
    }
    let times_met = |kind: &String| times.get(kind).copied().unwrap_or(0);
    let seldom: Vec<&String> = kinds
        .iter()
        .filter(|kind| times_met(kind) < pairs.len() / ONE_IN)
        .collect();
    if different.len() == pairs.len() && seldom.is_empty() {
        return Ok(());
    }
    Err(format!(
        "the comparing program itself is too poor: {} different pairs of {}, too seldom: {seldom:?}",
        different.len(),
        pairs.len()
    ))
}

pub fn of_other_octets() -> Vec<String> {
    let own = ["with NS", "without NS", "one minimal", "none minimal"];
    with_common(&own)
}

pub fn of_one_parameter_apart() -> Vec<String> {
    let own = [
        "with NS",
        "without NS",
        "both minimal",
        "one minimal",
        "none minimal",
    ];
    let parameters = FIELDS.into_iter().flat_map(|f| {
        let of_field = move |level: &str| of_level(level, f);
        LEVELS.map(of_field)
    });
    with_common(&own).into_iter().chain(parameters).collect()
}

pub fn of_another_non_standard() -> Vec<String> {
    let own = [
        "NS of one length",
        "NS of two lengths",
        "both minimal",
        "one minimal",
        "none minimal",
    ];
    with_common(&own)
}

fn with_common(own: &[&str]) -> Vec<String> {
    let lengths = ["messages of one length", "messages of two lengths"];
    let texts = own.iter().chain(&lengths).map(|text| text.to_string());
    let types = WITH_FIELDS.into_iter().map(of_type);
    let revisions = (0..=15).map(of_revision);
    texts.chain(types).chain(revisions).collect()
}

const LEVELS: [&str; 5] = ["NPar(1)", "SPar(1)", "NPar(2)", "SPar(2)", "NPar(3)"];

fn of_type(kind: u8) -> String {
    format!("type {kind}")
}

fn of_revision(revision: u8) -> String {
    format!("revision {revision}")
}

fn of_level(level: &str, f: u32) -> String {
    format!("{level} of {}", if f == 1 { "I" } else { "S" })
}

fn kinds_of(pair: &Pair) -> Vec<String> {
    let [one, other] = &pair.messages;
    let is_minimal = |octets: &&Vec<u8>| message::minimal_form(octets).as_ref() == Some(*octets);
    let minimal = match [one, other].into_iter().filter(is_minimal).count() {
        0 => "none minimal",
        1 => "one minimal",
        _ => "both minimal",
    };
    let lengths = match one.len() == other.len() {
        true => "messages of one length",
        false => "messages of two lengths",
    };
    let fields = [one, other].map(|octets| message::non_standard(octets).unwrap_or_default());
    let non_standard = match [fields[0].len(), fields[1].len()] {
        [0, 0] => "without NS",
        _ if fields[0] == fields[1] => "with NS",
        [length, other] if length == other => "NS of one length",
        _ => "NS of two lengths",
    };
    let mut kinds = [minimal, lengths, non_standard]
        .map(str::to_string)
        .to_vec();
    kinds.extend([of_type(one[0] & 15), of_revision(one[0] >> 4)]);
    if let Difference::Parameter(code) = pair.difference {
        kinds.push(of_level(level(code), code.f));
    }
    kinds
}

fn level(code: Code) -> &'static str {
    let place = match (code.s, code.t, code.n) {
        (0, ..) => 0,
        (_, 0, 0) => 1,
        (_, 0, _) => 2,
        (_, _, 0) => 3,
        _ => 4,
    };
    LEVELS[place]
}

#[cfg(test)]
mod tests {
    use super::*;
    use crate::message_checks::same_meaning::pairs::other_octets;
    use crate::random::Random;
    use crate::wire::written_out;

    #[test]
    fn what_is_too_poor_is_named() {
        let random = &mut Random::named("too poor");
        let mut pairs: Vec<Pair> = (0..1000).map(|_| other_octets(random)).collect();
        assert_eq!(each_often_enough(&of_other_octets(), &pairs), Ok(()));
        pairs.push(pairs[0].clone());
        let twice = each_often_enough(&of_other_octets(), &pairs).unwrap_err();
        assert!(twice.contains("1000 different pairs of 1001"));
        pairs.retain(|pair| pair.messages[0][0] >> 4 != 9);
        let seldom = each_often_enough(&of_other_octets(), &pairs).unwrap_err();
        assert!(seldom.ends_with("too seldom: [\"revision 9\"]"));
    }

    #[test]
    fn kinds_of_a_pair() {
        let pair = Pair {
            messages: ["21 80 80 80 81 C1", "21 80 80 80 81 40 C0"].map(written_out),
            difference: Difference::Parameter(Code::new(2, 1, 0, 1)),
        };
        let due = [
            "one minimal",
            "messages of two lengths",
            "without NS",
            "type 1",
            "revision 2",
            "NPar(2) of S",
        ];
        assert_eq!(kinds_of(&pair), due);
    }
}
