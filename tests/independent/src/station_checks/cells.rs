//! The cells of the step table, each with the settings that matter in it, and
//! how often they were acted on.

use super::heard::MALFORMED;
use crate::message;
use crate::station::far::Far;
use crate::station::number::{NO_CHOICE, TIMED_OUT, UNKNOWN_TYPE};
use crate::station::table::{rule_for, Cause, Reaction, Rule, When, TABLE};
use crate::station::words::*;
use crate::station::{Answer, Situation, PATIENCE};
use std::collections::BTreeMap;

/// How often each cell has to be acted on, and each refusal met, in a run.
pub const OFTEN_ENOUGH: usize = 50;

const BOTH: [bool; 2] = [false, true];

/// Refusals that come in every phase.
const EVERYWHERE: [u8; 6] = [1, 2, 3, 4, 5, 10];

#[derive(Default)]
pub struct Tally(BTreeMap<String, usize>);

impl Tally {
    pub fn count(&mut self, situation: &Situation, answer: &Answer) {
        for cell in cells_of(situation, answer) {
            *self.0.entry(cell).or_default() += 1;
        }
    }

    /// Whether all that is required was met often enough.
    pub fn complete(&self) -> Result<(), String> {
        let times = |cell: &String| self.0.get(cell).copied().unwrap_or(0);
        let missed: Vec<String> = required()
            .into_iter()
            .filter(|cell| times(cell) < OFTEN_ENOUGH)
            .map(|cell| format!("{cell} ({} times)", times(&cell)))
            .collect();
        if missed.is_empty() {
            return Ok(());
        }
        Err(format!("under {OFTEN_ENOUGH} times: {}", missed.join("; ")))
    }
}

fn refusal(phase: Phase, number: u8) -> String {
    format!("{}: refusal {number}", phase.name())
}

fn acted_on(phase: Phase, heard: &str, when: When, detail: &str) -> String {
    format!("{}: {heard}, {when:?}: {detail}", phase.name())
}

fn at_the_last_moment(phase: Phase) -> String {
    format!("{}: acted on {PATIENCE} ms after entry", phase.name())
}

fn just_too_late(phase: Phase) -> String {
    format!("{}: refused {} ms after entry", phase.name(), PATIENCE + 1)
}

/// The cells that a step belongs to.
fn cells_of(situation: &Situation, answer: &Answer) -> Vec<String> {
    let phase = situation.state.phase;
    let stay = situation.time.checked_sub(situation.state.entry);
    let mut cells = Vec::new();
    match answer.number {
        0 => {
            let at_the_end = stay == Some(PATIENCE) && situation.event != Event::Reset;
            cells.extend(at_the_end.then(|| at_the_last_moment(phase)));
        }
        number => cells.push(refusal(phase, number)),
    }
    if answer.number == TIMED_OUT && stay == Some(PATIENCE + 1) {
        cells.push(just_too_late(phase));
    }
    if matches!(answer.number, 0 | NO_CHOICE) {
        let cause = situation.cause().expect("a known type");
        let rule = rule_for(&situation.state, &situation.settings, cause).expect("a line");
        let detail = detail(rule.reaction, situation, answer);
        cells.push(acted_on(phase, &heard(situation), rule.when, &detail));
        cells.extend(start_up_of(situation, answer));
    }
    cells
}

/// What both sides offer where an MS follows a far list.
fn start_up([here, there]: [(bool, bool); 2]) -> String {
    let [here, there] = [here, there].map(|(v8, short_v8)| offer(v8, short_v8));
    format!("MS after a list: {here} here, {there} there")
}

fn start_up_of(situation: &Situation, answer: &Answer) -> Option<String> {
    let last = answer.fields.last()?.first()?;
    let selects = Kind::of_octet(*last) == Some(Kind::Ms);
    let list = Far::of_octets(&situation.field).filter(|_| selects)?;
    let here = (situation.settings.v8, situation.settings.short_v8);
    Some(start_up([here, (list.v8, list.short_v8)]))
}

/// All cells that have to be met.
fn required() -> Vec<String> {
    let offers = || {
        BOTH.into_iter()
            .flat_map(|v8| BOTH.map(|short| (v8, short)))
    };
    let pairs = offers().flat_map(|here| offers().map(move |there| [here, there]));
    let mut cells: Vec<String> = pairs.map(start_up).collect();
    for phase in Phase::ALL {
        cells.extend(EVERYWHERE.map(|number| refusal(phase, number)));
        if phase != Phase::Mode {
            cells.push(refusal(phase, UNKNOWN_TYPE));
        }
        if phase.is_timed() {
            cells.push(refusal(phase, TIMED_OUT));
            cells.extend([at_the_last_moment(phase), just_too_late(phase)]);
        }
        for (rule, cause) in lines(phase) {
            cells.extend(cells_in(phase, rule, cause));
            let chooses = details(rule.reaction, cause).contains(&no_choice());
            cells.extend(chooses.then(|| refusal(phase, NO_CHOICE)));
        }
    }
    cells
}

/// The lines of the table for the phase, one for each cause.
fn lines(phase: Phase) -> impl Iterator<Item = (&'static Rule, Cause)> {
    let rules = TABLE
        .iter()
        .filter(move |rule| rule.phases.contains(&phase));
    rules.flat_map(|rule| rule.causes.iter().map(move |&cause| (rule, cause)))
}

fn cells_in(phase: Phase, rule: &Rule, cause: Cause) -> Vec<String> {
    let mut cells = Vec::new();
    for heard in all_heard(cause) {
        for detail in details(rule.reaction, cause) {
            cells.push(acted_on(phase, &heard, rule.when, &detail));
        }
    }
    cells
}

/// The causes that have a line in the phase and what else the line asks for,
/// each as often as it has cells.
pub fn likely_in(phase: Phase) -> Vec<(Cause, When)> {
    let of_line = |(rule, cause): (&Rule, Cause)| {
        let cells = cells_in(phase, rule, cause).len();
        std::iter::repeat_n((cause, rule.when), cells)
    };
    lines(phase).flat_map(of_line).collect()
}

/// What comes to the station, in words.
fn heard(situation: &Situation) -> String {
    if situation.event != Event::Field {
        return event_heard(situation.event);
    }
    let kind = || {
        situation
            .field
            .first()
            .and_then(|&octet| Kind::of_octet(octet))
    };
    match (message::refusal(&situation.field), kind()) {
        (None, Some(kind)) => kind.name().to_string(),
        (Some(MALFORMED), Some(kind)) => malformed(kind),
        (_, _) if situation.field.is_empty() => NO_OCTETS.to_string(),
        _ => TOO_LONG.to_string(),
    }
}

const NO_OCTETS: &str = "field of no octets";
const TOO_LONG: &str = "field too long";

fn malformed(kind: Kind) -> String {
    format!("malformed {}", kind.name())
}

fn event_heard(event: Event) -> String {
    match event {
        Event::Start(start) => format!("start {}", start.name()),
        Event::Signal(signal) => signal.name().to_string(),
        other => format!("{other:?}"),
    }
}

/// All that has this cause, in words.
fn all_heard(cause: Cause) -> Vec<String> {
    match cause {
        Cause::Event(event) => vec![event_heard(event)],
        Cause::Message(kind) => vec![kind.name().to_string()],
        Cause::Broken => {
            let fields = [NO_OCTETS, TOO_LONG].map(str::to_string).into_iter();
            let frame = [event_heard(Event::InvalidFrame)].into_iter();
            frame
                .chain(fields)
                .chain(Kind::ALL.map(malformed))
                .collect()
        }
    }
}

fn no_choice() -> String {
    "no choice".to_string()
}

fn offer(v8: bool, short_v8: bool) -> String {
    format!("V.8 {v8}, Short V.8 {short_v8}")
}

fn ack(asked: bool) -> String {
    format!("ACK {asked}")
}

fn sent(fields: &[Vec<u8>]) -> String {
    let kinds = fields.iter().filter_map(|field| Kind::of_octet(field[0]));
    let names: Vec<&str> = kinds.map(Kind::name).collect();
    format!("sent {}", names.join(", "))
}

/// What matters in a step with this reaction.
fn detail(reaction: Reaction, situation: &Situation, answer: &Answer) -> String {
    let settings = &situation.settings;
    let offer = offer(settings.v8, settings.short_v8);
    match reaction {
        Reaction::Select | Reaction::SendListAndSelect if answer.number == NO_CHOICE => no_choice(),
        Reaction::Select | Reaction::SendListAndSelect => format!("{offer}, {}", ack(settings.ack)),
        Reaction::SendList | Reaction::SendListAndAsk(_) => offer,
        Reaction::Judge => sent(&answer.fields),
        Reaction::Agree => ack(situation.state.ack_asked),
        Reaction::Send(..) | Reaction::Note(_) | Reaction::Complain => String::new(),
    }
}

/// All that may matter in steps with this reaction.
fn details(reaction: Reaction, cause: Cause) -> Vec<String> {
    let offers = || {
        BOTH.into_iter()
            .flat_map(|v8| BOTH.map(|short| offer(v8, short)))
    };
    match reaction {
        Reaction::Select | Reaction::SendListAndSelect => {
            let with_acks = |offer: String| BOTH.map(|asked| format!("{offer}, {}", ack(asked)));
            offers().flat_map(with_acks).chain([no_choice()]).collect()
        }
        Reaction::SendList | Reaction::SendListAndAsk(_) => offers().collect(),
        Reaction::Judge => {
            let replies = [vec![], vec![vec![0x24]], vec![vec![0x29]], vec![vec![0x2A]]];
            replies.iter().map(|fields| sent(fields)).collect()
        }
        Reaction::Agree if cause == Cause::Message(Kind::Ack1) => BOTH.map(ack).to_vec(),
        Reaction::Agree => vec![ack(false)],
        Reaction::Send(..) | Reaction::Note(_) | Reaction::Complain => vec![String::new()],
    }
}

#[cfg(test)]
mod tests {
    use super::*;

    /// Counted by hand for Proposed: 6 refusals everywhere, then 9, 6 and two
    /// moments; ACK(1) asked for or not, the tone, four NAKs, twelve that are
    /// broken, and reset.
    #[test]
    fn cells_of_a_phase() {
        let name = Phase::Proposed.name();
        let cells = required();
        let of_phase = cells.iter().filter(|cell| cell.starts_with(name));
        assert_eq!(of_phase.count(), 6 + 4 + 2 + 1 + 4 + 12 + 1);
    }

    #[test]
    fn an_empty_tally_misses_everything() {
        let missed = Tally::default().complete().unwrap_err();
        assert!(missed.contains("Initial: refusal 11 (0 times)"));
        assert!(missed.contains("Mode: Reset, Always:  (0 times)"));
    }
}
