//! Situations of the station drawn at random.

use super::heard;
use crate::choice_checks::drawn::*;
use crate::random::Random;
use crate::station::table::{Cause, When};
use crate::station::words::{Phase, Settings};
use crate::station::{Situation, State, OUTPUT_ROOM, PATIENCE, STORE_ROOM};

/// As often as so many lines of the table, anything comes to the station.
const ANYTHING: usize = 20;

pub fn some_settings(random: &mut Random) -> Settings {
    Settings::numbered(random.below(Settings::COUNT))
}

pub fn large_output(random: &mut Random) -> Vec<u8> {
    let room = random.pick(&[OUTPUT_ROOM, OUTPUT_ROOM, 129, 130, 192, 255]);
    random.octets(room)
}

pub fn large_store(random: &mut Random) -> Vec<u8> {
    let room = random.pick(&[STORE_ROOM, STORE_ROOM, 65, 66, 128, 255]);
    random.octets(room)
}

/// A situation with nothing wrong in it, in which something with this cause
/// comes to the station.
pub fn faultless(random: &mut Random, phase: Phase, cause: Cause) -> Situation {
    let drawn = Drawn::some(random);
    with_tables(random, phase, cause, &drawn)
}

fn with_tables(random: &mut Random, phase: Phase, cause: Cause, drawn: &Drawn) -> Situation {
    let (event, field) = heard::with_cause(random, cause, drawn);
    let entry = entry(random);
    Situation {
        state: State {
            phase,
            entry,
            wish: random.octet(),
            ack_asked: random.bit(),
        },
        settings: some_settings(random),
        own: drawn.own_octets(),
        wishes: drawn.run(),
        event,
        field,
        time: in_time(random, entry),
        out: large_output(random),
        store: large_store(random),
    }
}

/// A situation in which anything may be wrong, but mostly is not. What comes
/// to the station is mostly one of these, with settings and a state as asked.
pub fn any(
    random: &mut Random,
    phase: Phase,
    likely: &[(Cause, When)],
    drawn: &Drawn,
) -> Situation {
    let (cause, when) = random.pick(likely);
    let mut situation = with_tables(random, phase, cause, drawn);
    while !when.holds(&situation.settings, &situation.state) {
        situation.settings = some_settings(random);
        situation.state.ack_asked = random.bit();
    }
    // The fewer lines a phase has, the more often anything comes.
    if random.below(likely.len() + ANYTHING) < ANYTHING {
        (situation.event, situation.field) = heard::anything(random, drawn);
    }
    spoil_tables(random, &mut situation, drawn);
    spoil_times(random, &mut situation);
    spoil_buffers(random, &mut situation);
    situation
}

/// With one chance in sixteen.
fn seldom(random: &mut Random) -> bool {
    random.below(16) == 0
}

fn spoil_tables(random: &mut Random, situation: &mut Situation, drawn: &Drawn) {
    if !drawn.wishes.is_empty() && seldom(random) {
        situation.wishes = drawn.clone().reaching_outside(random).run();
    }
    if seldom(random) {
        situation.wishes = bad_wishes(random, drawn);
    }
    if seldom(random) {
        situation.own = bad_own(random, drawn);
    }
}

fn bad_own(random: &mut Random, drawn: &Drawn) -> Vec<u8> {
    match random.below(5) {
        0 => loose_field(random, &drawn.own),
        1 => field(&with_forbidden(random, &drawn.own)),
        2 => [drawn.own_octets(), vec![random.octet()]].concat(),
        3 => Vec::new(),
        _ => {
            let length = random.within(1, 255);
            random.octets(length)
        }
    }
}

fn bad_wishes(random: &mut Random, drawn: &Drawn) -> Vec<u8> {
    let run = drawn.run();
    match random.below(5) {
        0 => [run, vec![random.octet() & 1]].concat(),
        1 => [run, record(2, &drawn.own_octets())].concat(),
        2 => [run, record(1, &loose_field(random, &drawn.own))].concat(),
        3 => Drawn::inside(random, MOST_WISHES + 1).run(),
        _ => {
            let length = random.pick(&[1, 2, 17, 300, 2047, 2048]);
            random.octets(length)
        }
    }
}

fn entry(random: &mut Random) -> u64 {
    let any = random.number();
    let near_end = u64::MAX - any % 10_000;
    random.pick(&[0, any % 10_000, any % (1 << 40), any, near_end, u64::MAX])
}

/// From the entry time to the last moment of a timed phase.
fn in_time(random: &mut Random, entry: u64) -> u64 {
    let any = random.number() % (PATIENCE + 1);
    entry.saturating_add(random.pick(&[0, 1, any, any, PATIENCE - 1, PATIENCE]))
}

fn spoil_times(random: &mut Random, situation: &mut Situation) {
    let entry = situation.state.entry;
    let any = random.number();
    if random.below(8) == 0 {
        let stay = random.pick(&[PATIENCE + 1, PATIENCE + 1, PATIENCE + 2, any, u64::MAX]);
        situation.time = entry.saturating_add(stay);
    }
    if seldom(random) {
        situation.time = random.pick(&[entry.saturating_sub(1), any % entry.max(1), 0]);
    }
}

fn spoil_buffers(random: &mut Random, situation: &mut Situation) {
    if seldom(random) {
        let any = random.below(OUTPUT_ROOM);
        let room = random.pick(&[0, any, OUTPUT_ROOM - 1]);
        situation.out = random.octets(room);
    }
    if seldom(random) {
        let any = random.below(STORE_ROOM);
        let room = random.pick(&[0, any, STORE_ROOM - 1]);
        situation.store = random.octets(room);
    }
}
