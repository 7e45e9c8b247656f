//! Whether the probe's answers are due: to a message by itself, and to the two
//! messages of a pair.

use super::answers::{Answers, Rewritten};
use super::pairs::{Difference, Pair};
use crate::message::Meaning;
use crate::wire;
use std::collections::BTreeSet;

impl Answers {
    /// Whether the octets written are a minimal form of the message, by
    /// themselves and by the implementation here.
    pub fn as_due(&self, message: &[u8]) -> Result<(), String> {
        let Answers { once, twice } = self;
        let demands = [
            (once.octets.len() <= message.len(), "the form is longer"),
            (twice.octets == once.octets, "the form has another form"),
            (twice.meaning == once.meaning, "the form is read otherwise"),
            (
                *once == Rewritten::due(message)?,
                "the form differs from the one made here",
            ),
        ];
        match demands.into_iter().find(|(met, _)| !met) {
            None => Ok(()),
            Some((_, fault)) => Err(format!(
                "{fault}: {} is {}, then {}",
                wire::hex(message),
                once.shown(),
                twice.shown()
            )),
        }
    }
}

/// Whether two messages have equal lists and equal minimal forms.
#[derive(Debug, PartialEq)]
struct Equal {
    lists: bool,
    octets: bool,
}

impl Equal {
    fn between([one, other]: [&Rewritten; 2]) -> Equal {
        Equal {
            lists: one.meaning.codes == other.meaning.codes,
            octets: one.octets == other.octets,
        }
    }
}

impl Difference {
    fn leaves_equal(self) -> Equal {
        Equal {
            lists: !matches!(self, Difference::Parameter(_)),
            octets: self == Difference::Octets,
        }
    }

    /// Whether this and nothing else is between the two meanings.
    fn is_between(self, [one, other]: [&Meaning; 2]) -> bool {
        let [codes, others] = [one, other].map(|meaning| BTreeSet::from_iter(&meaning.codes));
        let apart: Vec<u32> = codes
            .symmetric_difference(&others)
            .map(|&&code| code)
            .collect();
        let due = match self {
            Difference::Parameter(code) => vec![code.number()],
            _ => Vec::new(),
        };
        let same_first = (one.kind, one.revision) == (other.kind, other.revision);
        let same_non_standard = one.non_standard == other.non_standard;
        let is_non_standard = self == Difference::NonStandard;
        same_first && apart == due && same_non_standard != is_non_standard
    }
}

impl Pair {
    /// Whether the pair is one of its family, by the implementation here.
    fn is_made_right(&self) -> Result<(), String> {
        let [one, other] = &self.messages;
        let meanings = [
            &Rewritten::due(one)?.meaning,
            &Rewritten::due(other)?.meaning,
        ];
        match one != other && self.difference.is_between(meanings) {
            true => Ok(()),
            false => Err(self.told("the comparing program itself is wrong")),
        }
    }

    /// Whether the probe's answers to the two messages are due.
    fn as_due(&self, answers: [&Answers; 2]) -> Result<(), String> {
        self.is_made_right()?;
        let once = answers.map(|answers| &answers.once);
        let equal = Equal::between(once);
        if equal != self.difference.leaves_equal() {
            let [one, other] = once.map(Rewritten::shown);
            return Err(self.told(&format!("{equal:?}, {one}, {other}")));
        }
        let [one, other] = &self.messages;
        answers[0].as_due(one)?;
        answers[1].as_due(other)
    }

    fn told(&self, fault: &str) -> String {
        let [one, other] = self.messages.each_ref().map(|octets| wire::hex(octets));
        format!("{one} and {other}, {:?} apart: {fault}", self.difference)
    }
}

/// Whether the answers to the messages of all pairs, in a row, are due.
pub fn all_as_due(pairs: &[Pair], answers: &[Answers]) -> Result<(), String> {
    let faults: Vec<String> = pairs
        .iter()
        .zip(answers.chunks(2))
        .filter_map(|(pair, answers)| pair.as_due([&answers[0], &answers[1]]).err())
        .collect();
    match faults.first() {
        None => Ok(()),
        Some(first) => Err(format!("{} pairs are wrong, first: {first}", faults.len())),
    }
}

#[cfg(test)]
mod tests {
    use super::*;
    use crate::message::Code;
    use crate::message_checks::same_meaning::pairs;
    use crate::random::Random;
    use crate::wire::written_out;

    const SPAR_1: Code = Code::new(2, 1, 0, 0);
    const NPAR_2: Code = Code::new(2, 1, 0, 1);

    /// The answers of a probe without a fault.
    fn faultless(message: &[u8]) -> Answers {
        let once = Rewritten::due(message).unwrap();
        let twice = Rewritten::due(&once.octets).unwrap();
        Answers { once, twice }
    }

    /// What comes of a pair where the answers were changed.
    fn changed(pair: &Pair, change: impl Fn(&mut [Answers; 2])) -> Result<(), String> {
        let mut answers = pair.messages.each_ref().map(|message| faultless(message));
        change(&mut answers);
        all_as_due(std::slice::from_ref(pair), &answers)
    }

    fn refused(pair: &Pair, change: impl Fn(&mut [Answers; 2]), fault: &str) {
        let told = changed(pair, change).unwrap_err();
        assert!(told.contains(fault), "{told}");
    }

    fn pair(messages: [&str; 2], difference: Difference) -> Pair {
        Pair {
            messages: messages.map(written_out),
            difference,
        }
    }

    fn same() -> Pair {
        let messages = ["22 80 80 80 81 40 C0", "22 00 80 80 80 81 C0"];
        pair(messages, Difference::Octets)
    }

    fn apart() -> Pair {
        let messages = ["22 80 80 80 81 C0", "22 80 80 80 81 01 C0"];
        pair(messages, Difference::Parameter(NPAR_2))
    }

    fn other_non_standard() -> Pair {
        let messages = ["22 C0 80 80 80 02 01 01", "22 C0 80 80 80 02 01 02"];
        pair(messages, Difference::NonStandard)
    }

    #[test]
    fn faultless_answers_are_due() {
        for pair in [same(), apart(), other_non_standard()] {
            assert_eq!(changed(&pair, |_| ()), Ok(()));
        }
        let mut random = Random::named("faultless");
        for draw in [
            pairs::other_octets,
            pairs::one_parameter_apart,
            pairs::another_non_standard,
        ] {
            for _ in 0..500 {
                assert_eq!(changed(&draw(&mut random), |_| ()), Ok(()));
            }
        }
    }

    #[test]
    fn equal_lists_with_other_octets() {
        let unchanged = |[one, _]: &mut [Answers; 2]| {
            one.once.octets = written_out("22 80 80 80 81 40 C0");
        };
        refused(&same(), unchanged, "Equal { lists: true, octets: false }");
    }

    #[test]
    fn equal_octets_with_other_lists() {
        let cut = |[one, _]: &mut [Answers; 2]| one.once.meaning.codes.clear();
        refused(&same(), cut, "Equal { lists: false, octets: true }");
        let written_alike = |[one, other]: &mut [Answers; 2]| {
            other.once.octets = one.once.octets.clone();
        };
        refused(
            &apart(),
            written_alike,
            "Equal { lists: false, octets: true }",
        );
    }

    #[test]
    fn pairs_that_do_not_come_out_as_their_family_says() {
        let first_for_both = |answers: &mut [Answers; 2]| answers[1] = answers[0].clone();
        let both_equal = "Equal { lists: true, octets: true }";
        refused(&apart(), first_for_both, both_equal);
        refused(&other_non_standard(), first_for_both, both_equal);
        let none_equal = "Equal { lists: false, octets: false }";
        let one_more = |[one, _]: &mut [Answers; 2]| {
            one.once = Rewritten::due(&written_out("22 80 80 80 81 C1")).unwrap();
        };
        refused(&same(), one_more, none_equal);
        let one_lost = |[one, _]: &mut [Answers; 2]| one.once.meaning.codes.clear();
        refused(&other_non_standard(), one_lost, "lists: false");
    }

    #[test]
    fn forms_that_are_not_minimal_forms() {
        let both_longer = |answers: &mut [Answers; 2]| {
            for answers in answers {
                answers.once.octets = written_out("22 00 80 80 80 81 00 C0");
            }
        };
        refused(&same(), both_longer, "the form is longer");
        let changed_again = |[one, _]: &mut [Answers; 2]| {
            one.twice.octets = written_out("22 80 80 80 81 00 C0");
        };
        refused(&same(), changed_again, "the form has another form");
        let read_otherwise = |[one, _]: &mut [Answers; 2]| one.twice.meaning.codes.clear();
        refused(&same(), read_otherwise, "the form is read otherwise");
        let wrong_throughout = |answers: &mut [Answers; 2]| {
            for Answers { once, twice } in answers {
                once.meaning.codes = vec![SPAR_1.number(), NPAR_2.number()];
                *twice = once.clone();
            }
        };
        refused(
            &same(),
            wrong_throughout,
            "the form differs from the one made here",
        );
    }

    #[test]
    fn pairs_made_wrong() {
        let wrong = "the comparing program itself is wrong";
        for made in [same(), apart(), other_non_standard()] {
            for difference in [
                Difference::Octets,
                Difference::Parameter(NPAR_2),
                Difference::Parameter(SPAR_1),
                Difference::NonStandard,
            ] {
                if difference != made.difference {
                    let pair = Pair {
                        difference,
                        ..made.clone()
                    };
                    refused(&pair, |_| (), wrong);
                }
            }
        }
        let twice_the_same = ["22 80 80 80 80", "22 80 80 80 80"];
        refused(&pair(twice_the_same, Difference::Octets), |_| (), wrong);
        let other_first = ["22 80 80 80 80", "32 00 80 80 80 80"];
        refused(&pair(other_first, Difference::Octets), |_| (), wrong);
    }
}
