//! The two stations of a transaction, and what each of them must send, by
//! their tables, wishes and settings.

use super::super::drawn::some_settings;
use super::rows::{Row, Sent};
use crate::choice_checks::drawn::*;
use crate::random::Random;
use crate::station::words::{Phase, Settings};
use crate::station::State;

const REVISION_2: u8 = 0x20;
const ACK_1: u8 = REVISION_2 | 4;
pub const NAK_1: u8 = REVISION_2 | 8;
const NAK_2: u8 = REVISION_2 | 9;
const NAK_3: u8 = REVISION_2 | 10;

/// The bits of Table 5-1, and the mark of a last octet.
const V8: u8 = 1;
const SHORT_V8: u8 = 2;
const ACK: u8 = 8;
const LAST: u8 = 0x80;

pub struct Party {
    pub settings: Settings,
    pub drawn: Drawn,
    pub state: State,
    /// How many events it has acted on.
    pub acted: usize,
}

/// Two stations that lead to this row, with much or little in common.
pub fn drawn(random: &mut Random, row: &Row) -> [Party; 2] {
    let one = Drawn::some(random);
    let other = related(random, &one);
    let mut both = [one, other];
    if random.bit() {
        both.reverse();
    }
    let mut settings = [some_settings(random), some_settings(random)];
    row.settle(&mut settings);
    let [first, second] = settings;
    let entry = random.number() % (1 << 50);
    let party = |settings, drawn| Party {
        settings,
        drawn,
        state: State::entered(Phase::Initial, entry),
        acted: 0,
    };
    let [one, other] = both;
    [party(first, one), party(second, other)]
}

/// A station that has nothing to do with the other, or all that the other has
/// and wishes of its own, or the same wishes in another order or readiness.
fn related(random: &mut Random, one: &Drawn) -> Drawn {
    let unrelated = Drawn::some(random);
    let own = one.own.union(&unrelated.own).copied().collect();
    let mut wishes = one.wishes.clone();
    match random.below(4) {
        0 => return unrelated,
        1 => wishes = unrelated.wishes,
        2 => wishes.reverse(),
        _ => {}
    }
    for wish in &mut wishes {
        wish.is_ready = random.bit();
    }
    Drawn { own, wishes }
}

#[derive(Clone, Copy, PartialEq)]
pub enum Fate {
    Accepted,
    NotReady,
    Unfit,
}

/// What is to come of a transaction, seen from above both stations.
pub struct Forecast {
    /// Which station selects, and the MS with which it does, if it can.
    pub selector: usize,
    pub selection: Option<Selection>,
}

pub struct Selection {
    /// The number of the wish, from 1.
    pub number: u8,
    pub message: Vec<u8>,
    /// Its S field.
    pub standard: Vec<u8>,
    pub ack_asked: bool,
    pub fate: Fate,
}

impl Forecast {
    pub fn of(row: &Row, parties: &[Party; 2]) -> Forecast {
        let selector = row.selecting_turn() % 2;
        let [here, there] = [&parties[selector], &parties[1 - selector]];
        let is_possible = |wish: &Wanted| {
            let is_common = wish.parameters.is_subset(&there.drawn.own);
            wish.is_ready && (is_common || !row.has_lists())
        };
        let mut numbered = (1..).zip(&here.drawn.wishes);
        let choice = numbered.find(|(_, wish)| is_possible(wish));
        Forecast {
            selector,
            selection: choice.map(|choice| Selection::of(row, here, there, choice)),
        }
    }
}

impl Selection {
    fn of(row: &Row, here: &Party, there: &Party, choice: (u8, &Wanted)) -> Selection {
        let (number, wish) = choice;
        let both = |offer: fn(&Settings) -> bool| {
            row.has_lists() && offer(&here.settings) && offer(&there.settings)
        };
        let start_up = if both(|settings| settings.short_v8) {
            SHORT_V8
        } else if both(|settings| settings.v8) {
            V8
        } else {
            0
        };
        let ack_asked = here.settings.ack;
        let asked = start_up | if ack_asked { ACK } else { 0 };
        let standard = field(&wish.parameters);
        let fitting = there.drawn.wishes.iter();
        let mut fitting = fitting.filter(|other| wish.parameters.is_subset(&other.parameters));
        let fate = match (fitting.clone().count(), fitting.any(|other| other.is_ready)) {
            (0, _) => Fate::Unfit,
            (_, true) => Fate::Accepted,
            (_, false) => Fate::NotReady,
        };
        Selection {
            number,
            message: message(1, asked, &standard),
            standard,
            ack_asked,
            fate,
        }
    }

    /// The fields sent in answer.
    fn verdict(&self) -> Vec<Vec<u8>> {
        match self.fate {
            Fate::Accepted if self.ack_asked => vec![vec![ACK_1]],
            Fate::Accepted => Vec::new(),
            Fate::NotReady => vec![vec![NAK_2]],
            Fate::Unfit => vec![vec![NAK_3]],
        }
    }
}

fn message(kind: u8, identification: u8, standard: &[u8]) -> Vec<u8> {
    let front = [REVISION_2 | kind, LAST | identification, LAST];
    [&front, standard].concat()
}

impl Party {
    fn list(&self, kind: u8) -> Vec<u8> {
        let v8 = if self.settings.v8 { V8 } else { 0 };
        let short = if self.settings.short_v8 { SHORT_V8 } else { 0 };
        message(kind, v8 | short, &self.drawn.own_octets())
    }

    /// The fields in which this is sent; none where there is no choice.
    pub fn fields(&self, sent: Sent, selection: Option<&Selection>) -> Vec<Vec<u8>> {
        let selected = selection.map(|selection| selection.message.clone());
        match (sent, selected, selection) {
            (Sent::Cl, ..) => vec![self.list(2)],
            (Sent::Clr, ..) => vec![self.list(3)],
            (Sent::Ms, Some(selected), _) => vec![selected],
            (Sent::ClMs, Some(selected), _) => vec![self.list(2), selected],
            (Sent::Verdict, _, Some(selection)) => selection.verdict(),
            _ => Vec::new(),
        }
    }
}
