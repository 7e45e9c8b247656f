//! Steps whose answers are known beforehand, on paper.

use super::requests::{case, reply};
use crate::bench::{Bench, Case, Check};
use crate::station::words::*;
use crate::station::{Answer, Situation, State};
use crate::wire::written_out;

pub fn checks() -> Vec<Check> {
    vec![Check::new("station: known beforehand", known)]
}

/// Data with V.42 and V.34, and V.42 alone; telephony with voice.
const OWN: &str = "80 A1 02 D0 C1";

const READY: &str = "01 04 80 81 02 D0";
const NOT_READY: &str = "00 04 80 81 02 D0";
const SECOND_READY: &str = "00 03 80 A0 C1 01 04 80 81 02 D0";

const ENTRY: u64 = 100_000;

const NOTHING_SET: Settings = Settings {
    v8: false,
    short_v8: false,
    ack: false,
    on_mr_e: OnMrE::Ms,
    on_cr_d: OnCrD::Cl,
    on_cr_e: OnCrE::AsOnCrD,
    on_mr_d: OnMrD::Ms,
};

const V8_AND_ACK: Settings = Settings {
    v8: true,
    ack: true,
    ..NOTHING_SET
};

const EVERY_START_UP: Settings = Settings {
    v8: true,
    short_v8: true,
    ..NOTHING_SET
};

const ASKING_LISTS: Settings = Settings {
    on_mr_e: OnMrE::CrD,
    on_cr_d: OnCrD::Clr,
    on_mr_d: OnMrD::CrD,
    ..EVERY_START_UP
};

/// What is given: phase, settings, wishes, event, field, time since entry.
struct Given(Phase, Settings, &'static str, Event, &'static str, u64);

/// What is due: number, next phase, wish sent and ACK asked, signal, fields,
/// stored octets.
struct Due(
    u8,
    Phase,
    (u8, bool),
    Option<Signal>,
    &'static [&'static str],
    &'static str,
);

const LIST: &str = "22 81 80 80 A1 02 D0 C0";
const LISTED: &str = "80 A1 02 D0 C0";

/// With V.8 and Short V.8, and much that is unnamed or needless.
const LOOSE_REQUEST: &str = "33 B3 80 80 21 84 02 10 C0 C0 41 42 C4";
const REQUESTED: &str = "80 A1 02 D0 C0";

const START_MS: Event = Event::Start(Start::Ms);
const START_CLR: Event = Event::Start(Start::Clr);
const MR_E: Event = Event::Signal(Signal::MrE);
const MR_D: Event = Event::Signal(Signal::MrD);
const CR_E: Event = Event::Signal(Signal::CrE);
const CR_D: Event = Event::Signal(Signal::CrD);

const NONE: (u8, bool) = (0, false);

use Event::{AnswerTone, Field, InvalidFrame, Reset};
use Phase::*;

// One line for each step, so that the table can be read.
#[rustfmt::skip]
const STEPS: [(Given, Due); 42] = [
    // Transactions opened here.
    (Given(Initial, NOTHING_SET, READY, Event::Start(Start::Signal(Signal::CrE)), "", 0), Due(0, ListsE, NONE, Some(Signal::CrE), &[], "")),
    (Given(Initial, V8_AND_ACK, SECOND_READY, START_MS, "", 9000), Due(0, Proposed, (2, true), None, &["21 88 80 80 81 02 D0"], "")),
    (Given(Initial, V8_AND_ACK, NOT_READY, START_MS, "", 1), Due(11, Initial, NONE, None, &[], "")),
    (Given(Initial, EVERY_START_UP, "", START_CLR, "", 1), Due(0, Traded, NONE, None, &["23 83 80 80 A1 02 D0 C1"], "")),
    (Given(Listed, NOTHING_SET, READY, START_MS, "", 1), Due(10, Listed, NONE, None, &[], "")),
    // Signals heard.
    (Given(Initial, EVERY_START_UP, READY, MR_D, "", 1), Due(0, Proposed, (1, false), None, &["21 80 80 80 81 02 D0"], "")),
    (Given(Initial, NOTHING_SET, "", MR_E, "", 1), Due(11, Initial, NONE, None, &[], "")),
    (Given(Initial, ASKING_LISTS, READY, MR_E, "", 1), Due(0, ListsD, NONE, Some(Signal::CrD), &[], "")),
    (Given(Initial, NOTHING_SET, READY, CR_E, "", 1), Due(0, Listed, NONE, None, &["22 80 80 80 A1 02 D0 C1"], "")),
    (Given(Initial, ASKING_LISTS, READY, CR_E, "", 1), Due(0, Pair, NONE, None, &["23 83 80 80 A1 02 D0 C1"], "")),
    (Given(AskedE, ASKING_LISTS, READY, MR_D, "", 1), Due(0, ListsD, NONE, Some(Signal::CrD), &[], "")),
    (Given(AskedE, NOTHING_SET, READY, MR_E, "", 1), Due(10, AskedE, NONE, None, &[], "")),
    (Given(AskedD, NOTHING_SET, READY, MR_D, "", 1), Due(10, AskedD, NONE, None, &[], "")),
    (Given(ListsE, ASKING_LISTS, READY, CR_D, "", 1), Due(0, Pair, NONE, None, &["23 83 80 80 A1 02 D0 C1"], "")),
    (Given(ListsD, ASKING_LISTS, READY, CR_D, "", 1), Due(10, ListsD, NONE, None, &[], "")),
    (Given(Counter, NOTHING_SET, READY, CR_D, "", 1), Due(0, Listed, NONE, None, &["22 80 80 80 A1 02 D0 C1"], "")),
    // Lists heard.
    (Given(Initial, V8_AND_ACK, READY, Field, LIST, 1), Due(0, Proposed, (1, true), None, &["21 89 80 80 81 02 D0"], LISTED)),
    (Given(Traded, EVERY_START_UP, READY, Field, LIST, 5000), Due(0, Proposed, (1, false), None, &["21 81 80 80 81 02 D0"], LISTED)),
    (Given(ListsD, EVERY_START_UP, READY, Field, LOOSE_REQUEST, 1), Due(0, Proposed, (1, false), None, &["22 83 80 80 A1 02 D0 C1", "21 82 80 80 81 02 D0"], REQUESTED)),
    (Given(ListsE, NOTHING_SET, NOT_READY, Field, LOOSE_REQUEST, 1), Due(11, Initial, NONE, None, &[], REQUESTED)),
    (Given(Initial, NOTHING_SET, "", Field, LOOSE_REQUEST, 1), Due(0, Listed, NONE, None, &["22 80 80 80 A1 02 D0 C1"], REQUESTED)),
    (Given(Initial, NOTHING_SET, READY, Field, "22 80 80 80 80", 1), Due(11, Initial, NONE, None, &[], "80 80")),
    (Given(Pair, NOTHING_SET, "", Field, "22 80 80 80 81 40 C0", 1), Due(0, Half, NONE, None, &[], "80 81 C0")),
    (Given(Pair, NOTHING_SET, READY, Field, LOOSE_REQUEST, 1), Due(10, Pair, NONE, None, &[], "")),
    (Given(Listed, NOTHING_SET, READY, Field, LIST, 1), Due(10, Listed, NONE, None, &[], "")),
    // Modes selected.
    (Given(Listed, NOTHING_SET, READY, Field, "21 89 80 80 81 02 D0", 5000), Due(0, Mode, (0, true), None, &["24"], "80 81 02 D0")),
    (Given(Half, NOTHING_SET, READY, Field, "F1 80 80 80 81 42 C0", 1), Due(0, Mode, NONE, None, &[], "80 81 C2")),
    (Given(AskedD, NOTHING_SET, NOT_READY, Field, "21 80 80 80 81 02 D0", 1), Due(0, Initial, NONE, None, &["29"], "")),
    (Given(Initial, NOTHING_SET, READY, Field, "21 80 80 80 81 02 D8", 1), Due(0, Initial, NONE, None, &["2A"], "")),
    (Given(Counter, NOTHING_SET, READY, Field, "21 88 80 80 80", 1), Due(0, Initial, NONE, None, &["2A"], "")),
    (Given(Listed, NOTHING_SET, READY, Field, "21 89 80 80 81 02 D0", 5001), Due(6, Initial, NONE, None, &[], "")),
    (Given(Pair, NOTHING_SET, READY, Field, "21 89 80 80 81 02 D0", 1), Due(10, Pair, NONE, None, &[], "")),
    // The answer to an MS.
    (Given(Proposed, NOTHING_SET, READY, Field, "24", 1), Due(0, Mode, (7, true), None, &[], "")),
    (Given(Proposed, NOTHING_SET, READY, AnswerTone, "", 1), Due(10, Proposed, (7, true), None, &[], "")),
    (Given(Proposed, NOTHING_SET, READY, Field, "2B", 1), Due(0, Initial, NONE, None, &[], "")),
    (Given(Proposed, NOTHING_SET, READY, Field, "25", 1), Due(10, Proposed, (7, true), None, &[], "")),
    (Given(Initial, NOTHING_SET, READY, Field, "28", 1), Due(10, Initial, NONE, None, &[], "")),
    // Nothing that is well formed.
    (Given(Initial, NOTHING_SET, READY, InvalidFrame, "", 1), Due(0, Initial, NONE, None, &["28"], "")),
    (Given(Half, NOTHING_SET, READY, Field, "24 00", 1), Due(0, Initial, NONE, None, &["28"], "")),
    (Given(Half, NOTHING_SET, READY, Field, "2D", 1), Due(9, Half, NONE, None, &[], "")),
    (Given(Mode, NOTHING_SET, READY, Field, "2D", 90_000), Due(10, Mode, (7, true), None, &[], "")),
    (Given(Mode, NOTHING_SET, "02", Reset, "", 3), Due(0, Initial, NONE, None, &[], "")),
];

impl Given {
    /// The wish sent and what was asked count in Proposed and Mode only.
    fn situation(&self) -> Situation {
        let Given(phase, settings, wishes, event, field, stay) = self;
        Situation {
            state: State {
                phase: *phase,
                entry: ENTRY,
                wish: 7,
                ack_asked: true,
            },
            settings: *settings,
            own: written_out(OWN),
            wishes: written_out(wishes),
            event: *event,
            field: written_out(field),
            time: ENTRY + stay,
            out: vec![0x55; 130],
            store: vec![0xAA; 70],
        }
    }
}

impl Due {
    /// The entry time stays only where the step is refused and no phase is
    /// entered.
    fn answer(&self, situation: &Situation) -> Answer {
        let Due(number, phase, (wish, ack_asked), signal, fields, stored) = *self;
        let entry = match number {
            0 | 6 | 11 => situation.time,
            _ => ENTRY,
        };
        Answer {
            number,
            state: State {
                phase,
                entry,
                wish,
                ack_asked,
            },
            signal,
            fields: fields.iter().map(|field| written_out(field)).collect(),
            stored: written_out(stored),
        }
    }
}

fn known(bench: &mut Bench) -> Result<(), String> {
    bench.compare(&known_cases()?)
}

fn known_cases() -> Result<Vec<Case>, String> {
    let known = |(given, due): &(Given, Due)| {
        let situation = given.situation();
        case(&situation).known(&reply(&situation, &due.answer(&situation)))
    };
    STEPS.iter().map(known).collect()
}

#[cfg(test)]
mod tests {
    use super::*;
    use crate::station_checks::requests::request;

    #[test]
    fn answers_are_as_on_paper() {
        assert_eq!(known_cases().map(|cases| cases.len()), Ok(STEPS.len()));
    }

    /// Phase, entry time, wish, ACK asked; seven settings; own table, wishes;
    /// event, what, field; time, output, store.
    #[test]
    fn request_octet_by_octet() {
        let mut situation = STEPS[9].0.situation();
        situation.out = vec![0x55; 2];
        situation.store = vec![0xAA];
        let due = "06 00 A086010000000000 07 01 01 01 00 02 01 00 01 \
                   0500 80A102D0C1 0600 0104808102D0 01 02 0000 \
                   A186010000000000 0200 5555 0100 AA";
        assert_eq!(request(&situation), written_out(due));
    }

    /// CL and MS behind each other, then what was lent.
    #[test]
    fn reply_octet_by_octet() {
        let mut situation = STEPS[18].0.situation();
        situation.out.truncate(128);
        situation.store.truncate(64);
        let answer = situation.step();
        let due = "00 0A A186010000000000 01 00 00 0800 0700 0500 8000 \
                   22838080A102D0C1 218280808102D0";
        let due = [
            written_out(due),
            vec![0x55; 113],
            written_out("4000 80A102D0C0"),
        ];
        let due = [due.concat(), vec![0xAA; 59]].concat();
        assert_eq!(reply(&situation, &answer), due);
    }
}
