//! The step table of the station, line by line.

use super::words::*;
use super::State;
use Kind::*;
use Phase::*;
use Reaction::*;
use Signal::*;
use When::*;

/// What a step is decided by: the event, or what the field heard is.
#[derive(Clone, Copy, Debug, PartialEq, Eq)]
pub enum Cause {
    Event(Event),
    Message(Kind),
    /// An invalid frame, or a field of a wrong length or malformed.
    Broken,
}

/// What else a line asks for.
#[derive(Clone, Copy, Debug, PartialEq, Eq)]
pub enum When {
    Always,
    SetOnMrE(OnMrE),
    SetOnCrD(OnCrD),
    /// CR_e is answered like CR_d, and that in this way.
    SetOnCrEAsOnCrD(OnCrD),
    SetOnCrEToCrD,
    SetOnMrD(OnMrD),
    AckNotAsked,
}

#[derive(Clone, Copy, Debug, PartialEq, Eq)]
pub enum Reaction {
    /// The signal is sent.
    Send(Signal, Phase),
    /// CL is sent.
    SendList,
    /// CLR is sent.
    SendListAndAsk(Phase),
    /// MS is sent.
    Select,
    /// CL, then MS.
    SendListAndSelect,
    /// Nothing is sent.
    Note(Phase),
    /// The verdict on an MS.
    Judge,
    /// NAK(1) is sent.
    Complain,
    /// Nothing is sent; what Proposed carries stays.
    Agree,
}

pub struct Rule {
    pub phases: &'static [Phase],
    pub causes: &'static [Cause],
    pub when: When,
    pub reaction: Reaction,
}

const fn rule(
    phases: &'static [Phase],
    causes: &'static [Cause],
    when: When,
    reaction: Reaction,
) -> Rule {
    Rule {
        phases,
        causes,
        when,
        reaction,
    }
}

const fn start(start: Start) -> Cause {
    Cause::Event(Event::Start(start))
}

const fn hears(signal: Signal) -> Cause {
    Cause::Event(Event::Signal(signal))
}

const RESET: Cause = Cause::Event(Event::Reset);
const TONE: Cause = Cause::Event(Event::AnswerTone);
const MS: Cause = Cause::Message(Ms);
const CL: Cause = Cause::Message(Cl);
const CLR: Cause = Cause::Message(Clr);
const ACK: Cause = Cause::Message(Ack1);
const NAKS: [Cause; 4] = [
    Cause::Message(Nak1),
    Cause::Message(Nak2),
    Cause::Message(Nak3),
    Cause::Message(Nak4),
];

const BUT_MODE: [Phase; 11] = [
    Initial, AskedE, AskedD, ListsE, ListsD, Counter, Listed, Traded, Pair, Half, Proposed,
];
const BUT_INITIAL_AND_MODE: [Phase; 10] = [
    AskedE, AskedD, ListsE, ListsD, Counter, Listed, Traded, Pair, Half, Proposed,
];

pub const TABLE: [Rule; 40] = [
    rule(
        &[Initial],
        &[start(Start::Signal(MrE))],
        Always,
        Send(MrE, AskedE),
    ),
    rule(
        &[Initial],
        &[start(Start::Signal(MrD))],
        Always,
        Send(MrD, AskedD),
    ),
    rule(
        &[Initial],
        &[start(Start::Signal(CrE))],
        Always,
        Send(CrE, ListsE),
    ),
    rule(
        &[Initial],
        &[start(Start::Signal(CrD))],
        Always,
        Send(CrD, ListsD),
    ),
    rule(&[Initial], &[start(Start::Ms)], Always, Select),
    rule(&[Initial], &[start(Start::Cl)], Always, SendList),
    rule(
        &[Initial],
        &[start(Start::Clr)],
        Always,
        SendListAndAsk(Traded),
    ),
    rule(&[Initial], &[hears(MrD)], Always, Select),
    rule(&[Initial], &[hears(MrE)], SetOnMrE(OnMrE::Ms), Select),
    rule(
        &[Initial],
        &[hears(MrE)],
        SetOnMrE(OnMrE::MrD),
        Send(MrD, Counter),
    ),
    rule(
        &[Initial],
        &[hears(MrE)],
        SetOnMrE(OnMrE::CrD),
        Send(CrD, ListsD),
    ),
    rule(&[Initial], &[hears(CrD)], SetOnCrD(OnCrD::Cl), SendList),
    rule(
        &[Initial],
        &[hears(CrD)],
        SetOnCrD(OnCrD::Clr),
        SendListAndAsk(Pair),
    ),
    rule(
        &[Initial],
        &[hears(CrE)],
        SetOnCrEAsOnCrD(OnCrD::Cl),
        SendList,
    ),
    rule(
        &[Initial],
        &[hears(CrE)],
        SetOnCrEAsOnCrD(OnCrD::Clr),
        SendListAndAsk(Pair),
    ),
    rule(&[Initial], &[hears(CrE)], SetOnCrEToCrD, Send(CrD, ListsD)),
    rule(&[Initial], &[MS], Always, Judge),
    rule(&[Initial], &[CL], Always, Select),
    rule(&[Initial], &[CLR], Always, SendList),
    rule(&[AskedE], &[MS], Always, Judge),
    rule(&[AskedE], &[hears(MrD)], SetOnMrD(OnMrD::Ms), Select),
    rule(
        &[AskedE],
        &[hears(MrD)],
        SetOnMrD(OnMrD::CrD),
        Send(CrD, ListsD),
    ),
    rule(&[AskedE], &[hears(CrD)], SetOnCrD(OnCrD::Cl), SendList),
    rule(
        &[AskedE],
        &[hears(CrD)],
        SetOnCrD(OnCrD::Clr),
        SendListAndAsk(Pair),
    ),
    rule(&[AskedD, Listed], &[MS], Always, Judge),
    rule(&[ListsE, ListsD], &[CL], Always, Select),
    rule(&[ListsE, ListsD], &[CLR], Always, SendListAndSelect),
    rule(&[ListsE], &[hears(CrD)], SetOnCrD(OnCrD::Cl), SendList),
    rule(
        &[ListsE],
        &[hears(CrD)],
        SetOnCrD(OnCrD::Clr),
        SendListAndAsk(Pair),
    ),
    rule(&[Counter], &[MS], Always, Judge),
    rule(&[Counter], &[hears(CrD)], SetOnCrD(OnCrD::Cl), SendList),
    rule(
        &[Counter],
        &[hears(CrD)],
        SetOnCrD(OnCrD::Clr),
        SendListAndAsk(Pair),
    ),
    rule(&[Traded], &[CL], Always, Select),
    rule(&[Pair], &[CL], Always, Note(Half)),
    rule(&[Half], &[MS], Always, Judge),
    rule(&[Proposed], &[ACK], Always, Agree),
    rule(&[Proposed], &[TONE], AckNotAsked, Agree),
    rule(&BUT_INITIAL_AND_MODE, &NAKS, Always, Note(Initial)),
    rule(&BUT_MODE, &[Cause::Broken], Always, Complain),
    rule(&Phase::ALL, &[RESET], Always, Note(Initial)),
];

impl When {
    pub fn holds(self, settings: &Settings, state: &State) -> bool {
        match self {
            Always => true,
            SetOnMrE(answer) => settings.on_mr_e == answer,
            SetOnCrD(answer) => settings.on_cr_d == answer,
            SetOnCrEAsOnCrD(answer) => {
                settings.on_cr_e == OnCrE::AsOnCrD && settings.on_cr_d == answer
            }
            SetOnCrEToCrD => settings.on_cr_e == OnCrE::CrD,
            SetOnMrD(answer) => settings.on_mr_d == answer,
            AckNotAsked => !state.ack_asked,
        }
    }
}

/// The line that decides the step, if the table has one.
pub fn rule_for(state: &State, settings: &Settings, cause: Cause) -> Option<&'static Rule> {
    TABLE.iter().find(|rule| {
        rule.phases.contains(&state.phase)
            && rule.causes.contains(&cause)
            && rule.when.holds(settings, state)
    })
}
