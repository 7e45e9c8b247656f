//! What the probe's station does upon something, for all settings, and which
//! of them decide.

use super::causes::{Cause, Stimulus, OWN_TABLE};
use crate::probe::Probe;
use crate::station::number::{NO_CHOICE, SUCCESS, TIMED_OUT};
use crate::station::words::*;
use crate::station::{Answer, Situation, State, OUTPUT_ROOM, PATIENCE, STORE_ROOM};
use crate::station_checks::requests;
use crate::wire::{self, written_out};
use std::collections::{BTreeMap, BTreeSet};

const ENTRY: u64 = 1000;

/// All that a step may depend on besides phase and stimulus: the settings,
/// then whether there is a choice, then whether ACK(1) was asked for.
const FACTORS: [&[&str]; 9] = [
    &["V.8 off", "V.8 on"],
    &["Short V.8 off", "Short V.8 on"],
    &["ACK off", "ACK on"],
    &["MR_e set to MS", "MR_e set to MR_d", "MR_e set to CR_d"],
    &["CR_d set to CL", "CR_d set to CLR"],
    &["CR_e set as CR_d", "CR_e set to CR_d"],
    &["MR_d set to MS", "MR_d set to CR_d"],
    &["a choice", "no choice"],
    &["ACK(1) not asked for", "ACK(1) asked for"],
];
const CHOICE: usize = 7;
const ACK_ASKED: usize = 8;

/// One value of each factor.
type Values = [usize; FACTORS.len()];

/// A phase entered, with what was sent and the number told, or nothing but a
/// refusal.
#[derive(Clone, Debug, PartialEq, Eq, PartialOrd, Ord)]
pub enum Effect {
    Entered {
        next: Phase,
        sent: String,
        number: u8,
    },
    Refused(u8),
}

/// An effect, and in words when it comes.
pub struct Way {
    /// The name of what does so, where not all of its cause do the same.
    pub apart: Option<String>,
    pub when: String,
    pub effect: Effect,
}

/// All that may come of the cause in the phase.
pub fn ways(probe: &mut Probe, phase: Phase, cause: &Cause) -> Result<Vec<Way>, String> {
    let mut of_stimuli = Vec::new();
    for stimulus in &cause.stimuli {
        let effects = effects(probe, phase, stimulus)?;
        of_stimuli.push(decided(&effects));
    }
    if of_stimuli.iter().all(|ways| *ways == of_stimuli[0]) {
        return Ok(named(None, &of_stimuli[0]));
    }
    let names = cause.stimuli.iter().map(|stimulus| &stimulus.name);
    let apart = names.zip(&of_stimuli);
    Ok(apart
        .flat_map(|(name, ways)| named(Some(name), ways))
        .collect())
}

fn named(apart: Option<&String>, decided: &Decided) -> Vec<Way> {
    let way = |(effect, when): (&Effect, &String)| Way {
        apart: apart.cloned(),
        when: when.clone(),
        effect: effect.clone(),
    };
    decided.iter().map(way).collect()
}

fn all_values() -> Vec<Values> {
    let mut all = vec![[0; FACTORS.len()]];
    for (factor, words) in FACTORS.iter().enumerate() {
        let with_each =
            |values: Values| (0..words.len()).map(move |value| with(values, factor, value));
        all = all.into_iter().flat_map(with_each).collect();
    }
    all
}

fn with(mut values: Values, factor: usize, value: usize) -> Values {
    values[factor] = value;
    values
}

fn situation(phase: Phase, stimulus: &Stimulus, values: &Values) -> Situation {
    let [settings @ .., _, _] = *values;
    let stay = if stimulus.is_late { PATIENCE + 1 } else { 1 };
    Situation {
        state: State {
            phase,
            entry: ENTRY,
            wish: 1,
            ack_asked: values[ACK_ASKED] == 1,
        },
        settings: Settings::of_values(settings),
        own: written_out(OWN_TABLE),
        wishes: written_out(stimulus.wishes[values[CHOICE]]),
        event: stimulus.event,
        field: stimulus.field.clone(),
        time: ENTRY + stay,
        out: vec![0; OUTPUT_ROOM],
        store: vec![0; STORE_ROOM],
    }
}

type Effects = BTreeMap<Values, Effect>;

/// What comes of the stimulus with all values.
fn effects(probe: &mut Probe, phase: Phase, stimulus: &Stimulus) -> Result<Effects, String> {
    let all = all_values();
    let situations: Vec<Situation> = all
        .iter()
        .map(|values| situation(phase, stimulus, values))
        .collect();
    let asked: Vec<Vec<u8>> = situations.iter().map(requests::request).collect();
    let replies = probe.ask(&asked)?;
    let mut effects = Effects::new();
    for (place, values) in all.into_iter().enumerate() {
        let answer = requests::answer(&situations[place], &replies[place]);
        let answer = answer.ok_or_else(|| {
            let [request, reply] = [&asked[place], &replies[place]].map(|row| wire::hex(row));
            format!("no reply of a station: request {request}, reply {reply}")
        })?;
        effects.insert(values, effect(&situations[place].state, &answer));
    }
    Ok(effects)
}

fn effect(before: &State, answer: &Answer) -> Effect {
    let after = &answer.state;
    let stays = after.phase == before.phase && after.entry == before.entry;
    if stays && !matches!(answer.number, SUCCESS | TIMED_OUT | NO_CHOICE) {
        return Effect::Refused(answer.number);
    }
    let kinds = answer
        .fields
        .iter()
        .filter_map(|field| Kind::of_octet(field[0]));
    let signals = answer.signal.into_iter().map(Signal::name);
    let sent: Vec<&str> = signals.chain(kinds.map(Kind::name)).collect();
    Effect::Entered {
        next: after.phase,
        sent: sent.join(" then "),
        number: answer.number,
    }
}

/// Each effect, and in words when it comes.
type Decided = BTreeMap<Effect, String>;

fn decided(effects: &Effects) -> Decided {
    let mut values_of: BTreeMap<&Effect, BTreeSet<Values>> = BTreeMap::new();
    for (values, effect) in effects {
        values_of.entry(effect).or_default().insert(*values);
    }
    let words = |(effect, all): (&Effect, BTreeSet<Values>)| (effect.clone(), in_words(&all));
    values_of.into_iter().map(words).collect()
}

/// When one of these comes about, by the factors that decide it.
fn in_words(all: &BTreeSet<Values>) -> String {
    let decides = |factor: &usize| {
        let is_free = |values: &Values| {
            let mut each = 0..FACTORS[*factor].len();
            each.all(|value| all.contains(&with(*values, *factor, value)))
        };
        !all.iter().all(is_free)
    };
    let deciding: Vec<usize> = (0..FACTORS.len()).filter(decides).collect();
    let words = |values: &Values| -> Vec<&str> {
        let word = |&factor: &usize| FACTORS[factor][values[factor]];
        deciding.iter().map(word).collect()
    };
    let ways: BTreeSet<Vec<&str>> = all.iter().map(words).collect();
    let ways: Vec<String> = ways.into_iter().map(|way| way.join(", ")).collect();
    ways.join(" or ")
}

#[cfg(test)]
mod tests {
    use super::*;

    fn those(fits: impl Fn(&Values) -> bool) -> BTreeSet<Values> {
        all_values()
            .into_iter()
            .filter(|values| fits(values))
            .collect()
    }

    #[test]
    fn as_many_values_as_factors_give() {
        assert_eq!(those(|_| true).len(), 4 * Settings::COUNT);
    }

    #[test]
    fn only_what_decides_is_said() {
        assert_eq!(in_words(&those(|_| true)), "");
        let without = those(|values| values[CHOICE] == 1);
        assert_eq!(in_words(&without), "no choice");
        let both = those(|values| values[4] == 1 && values[5] == 0);
        let due = "CR_d set to CLR, CR_e set as CR_d";
        assert_eq!(in_words(&both), due);
        let two = those(|values| values[3] != 0);
        let due = "MR_e set to CR_d or MR_e set to MR_d";
        assert_eq!(in_words(&two), due);
    }
}
