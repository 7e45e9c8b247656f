//! The positions of the station.

use super::Position;
use crate::bench::Case;
use crate::station::words::{Event, Phase, Settings};
use crate::station::{Answer, Situation, State};
use crate::station_checks::requests::{case, reply};
use crate::wire::written_out;

pub const POSITIONS: [Position; 4] = [
    Position {
        words: "wish 80 81 02 D0, V.8 on both sides, ACK asked: MS is 21 89 80 80 81 02 D0",
        cases: selection,
    },
    Position {
        words: "21 80 80 80 81 02 D8 to that wish: NAK(3), 2A",
        cases: unknown_mode,
    },
    Position {
        words: "5000 ms after entry: handled",
        cases: in_time,
    },
    Position {
        words: "5001 ms after entry: refusal 6",
        cases: too_late,
    },
];

const WISH: &str = "80 81 02 D0";
const SELECTION: &str = "21 89 80 80 81 02 D0";
const ACK_1: &str = "24";
const NAK_1: &str = "28";
const NAK_3: &str = "2A";

const ENTRY: u64 = 1_000_000;

/// The phases that do not last for ever.
const TIMED: [Phase; 10] = [
    Phase::AskedE,
    Phase::AskedD,
    Phase::ListsE,
    Phase::ListsD,
    Phase::Counter,
    Phase::Listed,
    Phase::Traded,
    Phase::Pair,
    Phase::Half,
    Phase::Proposed,
];

/// A station with that wish, ready and in its own table, that offers V.8 and
/// asks for ACK, so long after it entered the phase.
fn situation(phase: Phase, event: Event, field: &str, stay: u64) -> Situation {
    let own = written_out(WISH);
    Situation {
        state: State {
            phase,
            entry: ENTRY,
            wish: 1,
            ack_asked: true,
        },
        settings: Settings::of_values([1, 0, 1, 0, 0, 0, 0]),
        wishes: [vec![1, own.len() as u8], own.clone()].concat(),
        own,
        event,
        field: written_out(field),
        time: ENTRY + stay,
        out: vec![0x55; 128],
        store: vec![0xAA; 64],
    }
}

/// The step as a case whose answer is known: number, next state but for its
/// time, which is that of the step, field sent, octets stored.
fn known(
    situation: &Situation,
    number: u8,
    (phase, wish, ack_asked): (Phase, u8, bool),
    sent: &str,
    stored: &str,
) -> Result<Case, String> {
    let fields = [written_out(sent)].into_iter();
    let answer = Answer {
        number,
        state: State {
            phase,
            entry: situation.time,
            wish,
            ack_asked,
        },
        signal: None,
        fields: fields.filter(|field| !field.is_empty()).collect(),
        stored: written_out(stored),
    };
    case(situation).known(&reply(situation, &answer))
}

const INITIAL: (Phase, u8, bool) = (Phase::Initial, 0, false);

/// The far side lists V.8 and the mode wished; the far list is stored.
fn selection() -> Result<Vec<Case>, String> {
    let list = "22 81 80 80 A1 02 D0 C0";
    let next = (Phase::Proposed, 1, true);
    let phases = [Phase::Initial, Phase::ListsD, Phase::Traded];
    let cases = phases.map(|phase| {
        let heard = situation(phase, Event::Field, list, 1);
        known(&heard, 0, next, SELECTION, "80 A1 02 D0 C0")
    });
    cases.into_iter().collect()
}

fn unknown_mode() -> Result<Vec<Case>, String> {
    let phases = [Phase::Initial, Phase::Listed, Phase::Half];
    let cases = phases.map(|phase| {
        let heard = situation(phase, Event::Field, "21 80 80 80 81 02 D8", 1);
        known(&heard, 0, INITIAL, NAK_3, "")
    });
    cases.into_iter().collect()
}

/// An invalid frame is acted on in every phase, and a good MS where one is
/// due. Where nothing is timed, later is in time as well.
fn in_time() -> Result<Vec<Case>, String> {
    let invalid = |(phase, stay)| {
        let heard = situation(phase, Event::InvalidFrame, "", stay);
        known(&heard, 0, INITIAL, NAK_1, "")
    };
    let untimed = [(Phase::Initial, 5001), (Phase::Initial, 1 << 40)];
    let stays = TIMED.into_iter().map(|phase| (phase, 5000));
    let accepted = situation(Phase::Listed, Event::Field, SELECTION, 5000);
    let accepted = known(&accepted, 0, (Phase::Mode, 0, true), ACK_1, WISH);
    let acknowledged = situation(Phase::Proposed, Event::Field, ACK_1, 5000);
    let acknowledged = known(&acknowledged, 0, (Phase::Mode, 1, true), "", "");
    let cases = stays.chain(untimed).map(invalid);
    cases.chain([accepted, acknowledged]).collect()
}

fn too_late() -> Result<Vec<Case>, String> {
    let mut cases = Vec::new();
    for phase in TIMED {
        for (event, field) in [
            (Event::InvalidFrame, ""),
            (Event::Field, SELECTION),
            (Event::Field, ACK_1),
        ] {
            let heard = situation(phase, event, field, 5001);
            cases.push(known(&heard, 6, INITIAL, "", "")?);
        }
    }
    Ok(cases)
}
