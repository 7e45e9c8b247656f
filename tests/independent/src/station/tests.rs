//! The station on the bench positions and on cases made by hand.

use super::table::{Rule, When, TABLE};
use super::*;
use crate::wire::written_out;

const OWN: &str = "80 81 02 D0";
const WISH: &str = "01 04 80 81 02 D0";
const LIST: &str = "22 81 80 80 81 02 D0";
const SELECTION: &str = "21 89 80 80 81 02 D0";

/// Something heard in a phase, one millisecond after its entry.
fn hearing(phase: Phase, field: &str) -> Situation {
    Situation {
        state: State::entered(phase, 700),
        settings: Settings::numbered(0),
        own: written_out(OWN),
        wishes: written_out(WISH),
        event: Event::Field,
        field: written_out(field),
        time: 701,
        out: vec![0; OUTPUT_ROOM],
        store: vec![0; STORE_ROOM],
    }
}

fn with_event(phase: Phase, event: Event) -> Situation {
    Situation {
        event,
        ..hearing(phase, "")
    }
}

fn sent(situation: &Situation) -> Vec<Vec<u8>> {
    situation.step().fields
}

#[test]
fn selection_of_the_bench() {
    let mut situation = hearing(Phase::Traded, LIST);
    situation.settings.v8 = true;
    situation.settings.ack = true;
    assert_eq!(sent(&situation), [written_out("21 89 80 80 81 02 D0")]);
}

#[test]
fn unnamed_parameter_of_the_bench() {
    let situation = hearing(Phase::Listed, "21 80 80 80 81 02 D8");
    assert_eq!(sent(&situation), [[0x2A]]);
    assert_eq!(situation.step().stored, []);
}

#[test]
fn times_of_the_bench() {
    let at = |time| Situation {
        time,
        ..hearing(Phase::Listed, SELECTION)
    };
    assert_eq!(at(700 + 5000).step().state.phase, Phase::Mode);
    let late = at(700 + 5001).step();
    assert_eq!(late.number, 6);
    assert_eq!(late.state, State::entered(Phase::Initial, 5701));
    assert_eq!(at(699).step().number, 5);
    assert_eq!(at(699).step().state, State::entered(Phase::Listed, 700));
    assert_eq!(at(u64::MAX).step().number, 6);
}

#[test]
fn initial_and_mode_have_all_the_time() {
    for (phase, number) in [(Phase::Initial, 0), (Phase::Mode, 10)] {
        let mut situation = hearing(phase, SELECTION);
        situation.time = u64::MAX;
        assert_eq!(situation.step().number, number);
        situation.time = 0;
        assert_eq!(situation.step().number, 5);
    }
}

/// Everything is wrong at first; then one cause after the other is mended.
#[test]
fn refusals_in_their_order() {
    let mut situation = hearing(Phase::Pair, "2D");
    situation.out.pop();
    situation.own.clear();
    situation.wishes = written_out("01 03 80 81 C1 02");
    situation.time = 699;
    assert_eq!(situation.step().number, 1);
    situation.out.push(0);
    situation.store.pop();
    assert_eq!(situation.step().number, 1);
    situation.store.push(0);
    assert_eq!(situation.step().number, 2);
    situation.own = written_out(OWN);
    assert_eq!(situation.step().number, 3);
    situation.wishes.pop();
    assert_eq!(situation.step().number, 4);
    situation.wishes = written_out(WISH);
    assert_eq!(situation.step().number, 5);
    situation.time = 6000;
    assert_eq!(situation.step().number, 6);
    situation.time = 700;
    assert_eq!(situation.step().number, 9);
    situation.field = written_out(SELECTION);
    assert_eq!(situation.step().number, 10);
    situation.state.phase = Phase::Half;
    assert_eq!(situation.step().number, 0);
}

#[test]
fn reset_looks_at_nothing() {
    for phase in Phase::ALL {
        let mut situation = with_event(phase, Event::Reset);
        situation.out.clear();
        situation.store.clear();
        situation.own.clear();
        situation.wishes = vec![9];
        situation.time = 3;
        let due = Answer::entering(State::entered(Phase::Initial, 3));
        assert_eq!(situation.step(), due);
    }
}

/// Own settings, far bits, first octet of I in the MS.
#[test]
fn start_up_procedures() {
    let cases = [
        ([true, true], 0b11, 0x82),
        ([true, true], 0b01, 0x81),
        ([true, false], 0b11, 0x81),
        ([false, true], 0b11, 0x82),
        ([true, false], 0b10, 0x80),
        ([false, true], 0b01, 0x80),
        ([false, false], 0b11, 0x80),
        ([true, true], 0b00, 0x80),
    ];
    for ([v8, short_v8], far, due) in cases {
        let mut situation = hearing(Phase::Initial, LIST);
        situation.field[1] = 0x80 | far;
        situation.settings.v8 = v8;
        situation.settings.short_v8 = short_v8;
        assert_eq!(sent(&situation)[0][1], due);
    }
}

#[test]
fn nothing_is_sent_without_a_choice() {
    let mut situation = hearing(Phase::ListsD, "23 80 80 80 A0 40 C0");
    let answer = situation.step();
    assert_eq!((answer.number, answer.fields.len()), (11, 0));
    assert_eq!(answer.stored, written_out("80 A0 C0"));
    assert_eq!(answer.state, State::entered(Phase::Initial, 701));
    situation.state.phase = Phase::Initial;
    assert_eq!(sent(&situation), [written_out("22 80 80 80 81 02 D0")]);
}

#[test]
fn answer_to_a_proposal() {
    let mut tone = with_event(Phase::Proposed, Event::AnswerTone);
    tone.state.wish = 9;
    let mode = State {
        phase: Phase::Mode,
        entry: 701,
        ..tone.state
    };
    assert_eq!(tone.step().state, mode);
    tone.state.ack_asked = true;
    assert_eq!(tone.step().number, 10);
    let mut ack = hearing(Phase::Proposed, "04");
    ack.state = tone.state;
    assert_eq!(
        ack.step().state,
        State {
            ack_asked: true,
            ..mode
        }
    );
}

/// ACK(2) has no line anywhere, and a NAK none in Initial and Mode.
#[test]
fn what_has_no_line() {
    for phase in Phase::ALL {
        assert_eq!(hearing(phase, "25").step().number, 10);
        let number = if phase.is_timed() { 0 } else { 10 };
        assert_eq!(hearing(phase, "2B").step().number, number);
    }
}

fn states() -> impl Iterator<Item = State> {
    let with_ack = |phase| {
        [false, true].map(|ack_asked| State {
            ack_asked,
            ..State::entered(phase, 0)
        })
    };
    Phase::ALL.into_iter().flat_map(with_ack)
}

/// No two lines of the table speak of the same.
#[test]
fn lines_do_not_overlap() {
    for (state, number) in states().flat_map(|s| (0..Settings::COUNT).map(move |n| (s, n))) {
        let settings = Settings::numbered(number);
        let holds =
            |rule: &&Rule| rule.phases.contains(&state.phase) && rule.when.holds(&settings, &state);
        let mut causes: Vec<Cause> = Vec::new();
        for rule in TABLE.iter().filter(holds) {
            assert!(rule.causes.iter().all(|cause| !causes.contains(cause)));
            causes.extend(rule.causes);
        }
    }
}

/// Where a line with a setting stands, one holds whatever the setting is.
#[test]
fn settings_are_all_provided_for() {
    for number in 0..Settings::COUNT {
        let settings = Settings::numbered(number);
        for rule in TABLE.iter().filter(|rule| rule.when != When::AckNotAsked) {
            let state = State::entered(rule.phases[0], 0);
            assert!(rule_for(&state, &settings, rule.causes[0]).is_some());
        }
    }
}

#[test]
fn settings_have_their_numbers() {
    let octets: Vec<[u8; 7]> = (0..Settings::COUNT)
        .map(|number| Settings::numbered(number).octets())
        .collect();
    assert_eq!(octets[0], [0; 7]);
    assert_eq!(octets[Settings::COUNT - 1], [1, 1, 1, 2, 1, 1, 1]);
    assert!((1..octets.len()).all(|place| !octets[..place].contains(&octets[place])));
}

/// The phases that a line may lead to, without the end of the transaction.
fn leads_to(rule: &Rule) -> Option<Phase> {
    let next = match rule.reaction {
        Reaction::Send(_, next) | Reaction::SendListAndAsk(next) | Reaction::Note(next) => next,
        Reaction::SendList => Phase::Listed,
        Reaction::Select | Reaction::SendListAndSelect => Phase::Proposed,
        Reaction::Judge | Reaction::Complain | Reaction::Agree => return None,
    };
    Some(next).filter(|next| next.is_timed())
}

#[test]
fn over_by_the_fourth_acted_on_event() {
    let mut phases = vec![Phase::Initial];
    for _ in 1..=4 {
        let rules = TABLE.iter().filter(|rule| {
            let mut from = rule.phases.iter();
            from.any(|phase| phases.contains(phase))
        });
        phases = rules.filter_map(leads_to).collect();
    }
    assert_eq!(phases, []);
}
