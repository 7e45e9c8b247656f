//! The station's step (V.8 bis Table 7; RULES, The station).

use crate::choice::{self, Fault, Verdict};
use crate::message::{self, ACK_1, CL, CLR, MS, NAK_1, NAK_2, NAK_3, NAK_4};
use crate::names::Keep;
use crate::rewrite::store as store_field;

const OUTPUT_ROOM: usize = 128;
const STORE_ROOM: usize = 64;
const LONGEST: u64 = 5000;
const REVISION_2: u8 = 0x20;

/// Bits of the first I octet.
const V8: u8 = 1;
const SHORT_V8: u8 = 2;
const ASKS_ACK: u8 = 8;

#[derive(Clone, Copy)]
pub enum Signal {
    MrE,
    MrD,
    CrE,
    CrD,
}

/// The wish that an MS was sent for, 0 if none, and whether the MS asks for ACK.
#[derive(Clone, Copy)]
pub struct Proposal {
    pub wish: u8,
    pub ack: bool,
}

#[derive(Clone, Copy)]
pub enum Phase {
    Initial,
    AskedE,
    AskedD,
    ListsE,
    ListsD,
    Counter,
    Listed,
    Traded,
    Pair,
    Half,
    Proposed(Proposal),
    Mode(Proposal),
}

#[derive(Clone, Copy)]
pub struct State {
    pub phase: Phase,
    pub entry: u64,
}

#[derive(Clone, Copy)]
pub enum Start {
    Signal(Signal),
    Ms,
    Cl,
    Clr,
}

#[derive(Clone, Copy)]
pub enum Event<'a> {
    Start(Start),
    Signal(Signal),
    Field(&'a [u8]),
    InvalidFrame,
    AnswerTone,
    Reset,
}

#[derive(Clone, Copy)]
pub enum OnMrE {
    Ms,
    MrD,
    CrD,
}

#[derive(Clone, Copy)]
pub enum OnMrD {
    Ms,
    CrD,
}

#[derive(Clone, Copy)]
pub enum OnCrE {
    AsOnCrD,
    CrD,
}

#[derive(Clone, Copy)]
pub enum OnCrD {
    Cl,
    Clr,
}

/// What is offered, whether ACK is asked, and what is answered.
pub struct Settings {
    pub v8: bool,
    pub short_v8: bool,
    pub ack: bool,
    pub on_mr_e: OnMrE,
    pub on_cr_d: OnCrD,
    pub on_cr_e: OnCrE,
    pub on_mr_d: OnMrD,
}

#[derive(Clone, Copy)]
pub enum Told {
    Done = 0,
    BadLent = 1,
    BadOwn = 2,
    BadWishes = 3,
    Outside = 4,
    TimeBefore = 5,
    TimedOut = 6,
    UnknownType = 9,
    NotInTable = 10,
    NoChoice = 11,
}

/// What is told, the signal to send, the lengths of the fields sent and of what was stored, and the next state.
pub struct Stepped {
    pub told: Told,
    pub signal: Option<Signal>,
    pub first: usize,
    pub second: usize,
    pub stored: usize,
    pub state: State,
}

/// An answer that sends and stores nothing.
fn quiet(told: Told, state: State) -> Stepped {
    Stepped {
        told,
        signal: None,
        first: 0,
        second: 0,
        stored: 0,
        state,
    }
}

/// What a row of the table sends, and the phase that follows: Proposed behind the MS of a choice, Initial behind NAK(1), and behind a
/// verdict what that says. A list heard is stored whatever is sent.
enum Row {
    Nothing(Phase),
    Signal(Signal, Phase),
    List(u8, Phase),
    Mode { behind_list: bool },
    Nak1,
    Verdict,
}

/// A signal is sent, and what it asks for is waited for.
fn ask(signal: Signal) -> Row {
    let phase = match signal {
        Signal::MrE => Phase::AskedE,
        Signal::MrD => Phase::AskedD,
        Signal::CrE => Phase::ListsE,
        Signal::CrD => Phase::ListsD,
    };
    Row::Signal(signal, phase)
}

/// Table 7 for a start. Here and below, None is no row.
fn start_row(phase: Phase, start: Start) -> Option<Row> {
    let Phase::Initial = phase else {
        return None;
    };
    Some(match start {
        Start::Signal(signal) => ask(signal),
        Start::Ms => Row::Mode { behind_list: false },
        Start::Cl => Row::List(CL, Phase::Listed),
        Start::Clr => Row::List(CLR, Phase::Traded),
    })
}

/// Table 7 for a signal heard.
fn signal_row(phase: Phase, signal: Signal, set: &Settings) -> Option<Row> {
    use Phase::*;
    Some(match (phase, signal) {
        (Initial, Signal::MrE) => match set.on_mr_e {
            OnMrE::Ms => Row::Mode { behind_list: false },
            OnMrE::MrD => Row::Signal(Signal::MrD, Counter),
            OnMrE::CrD => ask(Signal::CrD),
        },
        (Initial, Signal::MrD) => Row::Mode { behind_list: false },
        (AskedE, Signal::MrD) => match set.on_mr_d {
            OnMrD::Ms => Row::Mode { behind_list: false },
            OnMrD::CrD => ask(Signal::CrD),
        },
        (Initial, Signal::CrE) if matches!(set.on_cr_e, OnCrE::CrD) => ask(Signal::CrD),
        (Initial, Signal::CrE) | (Initial | AskedE | ListsE | Counter, Signal::CrD) => {
            match set.on_cr_d {
                OnCrD::Cl => Row::List(CL, Listed),
                OnCrD::Clr => Row::List(CLR, Pair),
            }
        }
        _ => return None,
    })
}

/// Table 7 for a message heard.
fn message_row(phase: Phase, kind: u8) -> Option<Row> {
    use Phase::*;
    Some(match (phase, kind) {
        (Initial | AskedE | AskedD | Counter | Listed | Half, MS) => Row::Verdict,
        (Initial | ListsE | ListsD | Traded, CL) => Row::Mode { behind_list: false },
        (ListsE | ListsD, CLR) => Row::Mode { behind_list: true },
        (Initial, CLR) => Row::List(CL, Listed),
        (Pair, CL) => Row::Nothing(Half),
        (Proposed(proposal), ACK_1) => Row::Nothing(Mode(proposal)),
        (Initial, _) => return None,
        (_, NAK_1..=NAK_4) => Row::Nothing(Initial),
        _ => return None,
    })
}

/// Table 7 for the answer tone.
fn tone_row(phase: Phase) -> Option<Row> {
    match phase {
        Phase::Proposed(proposal) if !proposal.ack => Some(Row::Nothing(Phase::Mode(proposal))),
        _ => None,
    }
}

fn offer(v8: bool, short_v8: bool, ack: bool) -> u8 {
    (u8::from(v8) * V8) | (u8::from(short_v8) * SHORT_V8) | (u8::from(ack) * ASKS_ACK)
}

/// Puts a message of revision 2 with the bits of its first I octet.
fn put_message(kind: u8, bits: u8, standard: &[u8], out: &mut [u8]) -> usize {
    out[..3].copy_from_slice(&[REVISION_2 | kind, 0x80 | bits, 0x80]);
    out[3..3 + standard.len()].copy_from_slice(standard);
    3 + standard.len()
}

/// What a step is lent.
pub struct Lent<'a> {
    pub settings: &'a Settings,
    pub own: &'a [u8],
    pub wishes: &'a [u8],
    pub time: u64,
    pub out: &'a mut [u8],
    pub store: &'a mut [u8],
}

impl Lent<'_> {
    fn enter(&self, phase: Phase) -> State {
        State {
            phase,
            entry: self.time,
        }
    }

    /// The first refusal that does not ask what the event is. Not inlined: the walk over the wishes needs the registers.
    #[inline(never)]
    fn refusal(&self, state: State) -> Option<Told> {
        if self.out.len() < OUTPUT_ROOM || self.store.len() < STORE_ROOM {
            return Some(Told::BadLent);
        }
        if let Err(fault) = choice::check_tables(self.own, self.wishes) {
            return Some(match fault {
                Fault::BadOwn => Told::BadOwn,
                Fault::BadWishes => Told::BadWishes,
                Fault::Outside => Told::Outside,
            });
        }
        if self.time < state.entry {
            return Some(Told::TimeBefore);
        }
        match state.phase {
            Phase::Initial => None,
            Phase::Mode(_) => Some(Told::NotInTable),
            _ => (self.time - state.entry > LONGEST).then_some(Told::TimedOut),
        }
    }

    /// A refusal by which nothing is done; of these a late event alone changes the state.
    fn refuse(&self, told: Told, state: State) -> Stepped {
        let state = if let Told::TimedOut = told {
            self.enter(Phase::Initial)
        } else {
            state
        };
        quiet(told, state)
    }

    fn put_list(&mut self, kind: u8) -> usize {
        let set = self.settings;
        let bits = offer(set.v8, set.short_v8, false);
        put_message(kind, bits, self.own, self.out)
    }

    /// Puts the MS of a wish behind octets put already. `far` is the first I octet of the list heard, 0 if none was.
    fn put_mode(&mut self, chosen: &[u8], far: u8, behind: usize) -> usize {
        let set = self.settings;
        let short_v8 = set.short_v8 && far & SHORT_V8 != 0;
        let v8 = !short_v8 && set.v8 && far & V8 != 0;
        let bits = offer(v8, short_v8, set.ack);
        put_message(MS, bits, chosen, &mut self.out[behind..])
    }

    fn send_octet(&mut self, kind: u8, answer: &mut Stepped) {
        self.out[0] = REVISION_2 | kind;
        answer.first = 1;
    }

    /// The MS of the choice is sent, behind a CL or alone; where there is no choice, nothing at all.
    fn propose(
        &mut self,
        far: Option<&[u8]>,
        offered: u8,
        behind_list: bool,
        answer: &mut Stepped,
    ) {
        let Some((wish, chosen)) = choice::choose(self.wishes, far) else {
            answer.told = Told::NoChoice;
            return;
        };
        let ack = self.settings.ack;
        answer.state.phase = Phase::Proposed(Proposal { wish, ack });
        if behind_list {
            answer.first = self.put_list(CL);
            answer.second = self.put_mode(chosen, offered, answer.first);
        } else {
            answer.first = self.put_mode(chosen, offered, 0);
        }
    }

    /// An MS was heard: the verdict.
    fn judge(&mut self, message: &[u8], standard: usize, answer: &mut Stepped) {
        match choice::judge(self.wishes, &message[standard..]) {
            Verdict::NotReady => self.send_octet(NAK_2, answer),
            Verdict::NoFit => self.send_octet(NAK_3, answer),
            Verdict::Accepted => {
                let ack = message[1] & ASKS_ACK != 0;
                answer.state.phase = Phase::Mode(Proposal { wish: 0, ack });
                answer.stored = store_field(message, standard, Keep::All, self.store);
                if ack {
                    self.send_octet(ACK_1, answer);
                }
            }
        }
    }

    /// One function for whoever calls it: inlined, it would shrink to what a caller can meet.
    #[inline(never)]
    pub fn step(mut self, state: State, event: Event) -> Stepped {
        if !matches!(event, Event::Reset) {
            if let Some(told) = self.refusal(state) {
                return self.refuse(told, state);
            }
        }
        // Initial follows where nothing below says which phase does.
        let mut answer = quiet(Told::Done, self.enter(Phase::Initial));
        let (mut kind, mut message, mut standard) = (0, &[][..], 0);
        let row = match event {
            Event::Start(start) => start_row(state.phase, start),
            Event::Signal(signal) => signal_row(state.phase, signal, self.settings),
            Event::Field(field) => match message::check(field) {
                Ok(parts) => {
                    (kind, message, standard) = (parts.kind, field, parts.standard);
                    message_row(state.phase, kind)
                }
                Err(message::Refusal::UnknownType) => return self.refuse(Told::UnknownType, state),
                Err(_) => Some(Row::Nak1),
            },
            Event::InvalidFrame => Some(Row::Nak1),
            Event::AnswerTone => tone_row(state.phase),
            Event::Reset => Some(Row::Nothing(Phase::Initial)),
        };
        let Some(row) = row else {
            return self.refuse(Told::NotInTable, state);
        };
        let (mut far, mut offered) = (None, 0);
        if let CL | CLR = kind {
            answer.stored = store_field(message, standard, Keep::Named, self.store);
            (far, offered) = (Some(&message[standard..]), message[1]);
        }
        match row {
            Row::Nothing(phase) => answer.state.phase = phase,
            Row::Signal(signal, phase) => {
                answer.signal = Some(signal);
                answer.state.phase = phase;
            }
            Row::List(kind, phase) => {
                answer.first = self.put_list(kind);
                answer.state.phase = phase;
            }
            Row::Mode { behind_list } => self.propose(far, offered, behind_list, &mut answer),
            Row::Nak1 => self.send_octet(NAK_1, &mut answer),
            Row::Verdict => self.judge(message, standard, &mut answer),
        }
        answer
    }
}
