//! The words of the station: phases, signals, messages, settings and events.

#[derive(Clone, Copy, Debug, PartialEq, Eq, PartialOrd, Ord)]
pub enum Phase {
    Initial,
    AskedE,
    AskedD,
    ListsE,
    ListsD,
    Counter,
    Listed,
    Traded,
    Pair,
    Half,
    Proposed,
    Mode,
}

impl Phase {
    /// In the order of their numbers.
    pub const ALL: [Phase; 12] = [
        Phase::Initial,
        Phase::AskedE,
        Phase::AskedD,
        Phase::ListsE,
        Phase::ListsD,
        Phase::Counter,
        Phase::Listed,
        Phase::Traded,
        Phase::Pair,
        Phase::Half,
        Phase::Proposed,
        Phase::Mode,
    ];

    pub fn number(self) -> u8 {
        self as u8
    }

    pub fn name(self) -> &'static str {
        match self {
            Phase::Initial => "Initial",
            Phase::AskedE => "Asked-e",
            Phase::AskedD => "Asked-d",
            Phase::ListsE => "Lists-e",
            Phase::ListsD => "Lists-d",
            Phase::Counter => "Counter",
            Phase::Listed => "Listed",
            Phase::Traded => "Traded",
            Phase::Pair => "Pair",
            Phase::Half => "Half",
            Phase::Proposed => "Proposed",
            Phase::Mode => "Mode",
        }
    }

    /// Whether the phase is left when it has lasted too long.
    pub fn is_timed(self) -> bool {
        !matches!(self, Phase::Initial | Phase::Mode)
    }

    /// Whether the wish sent and what was asked of the far side are kept.
    pub fn carries_wish(self) -> bool {
        matches!(self, Phase::Proposed | Phase::Mode)
    }
}

#[derive(Clone, Copy, Debug, PartialEq, Eq)]
pub enum Signal {
    MrE,
    MrD,
    CrE,
    CrD,
}

impl Signal {
    pub const ALL: [Signal; 4] = [Signal::MrE, Signal::MrD, Signal::CrE, Signal::CrD];

    pub fn name(self) -> &'static str {
        match self {
            Signal::MrE => "MR_e",
            Signal::MrD => "MR_d",
            Signal::CrE => "CR_e",
            Signal::CrD => "CR_d",
        }
    }
}

/// The types of messages, with their numbers.
#[derive(Clone, Copy, Debug, PartialEq, Eq)]
pub enum Kind {
    Ms = 1,
    Cl = 2,
    Clr = 3,
    Ack1 = 4,
    Ack2 = 5,
    Nak1 = 8,
    Nak2 = 9,
    Nak3 = 10,
    Nak4 = 11,
}

impl Kind {
    pub const ALL: [Kind; 9] = [
        Kind::Ms,
        Kind::Cl,
        Kind::Clr,
        Kind::Ack1,
        Kind::Ack2,
        Kind::Nak1,
        Kind::Nak2,
        Kind::Nak3,
        Kind::Nak4,
    ];

    pub fn number(self) -> u8 {
        self as u8
    }

    /// The type that the first octet of a message has, if it is known.
    pub fn of_octet(octet: u8) -> Option<Kind> {
        let mut kinds = Kind::ALL.into_iter();
        kinds.find(|kind| kind.number() == octet & 15)
    }

    pub fn name(self) -> &'static str {
        match self {
            Kind::Ms => "MS",
            Kind::Cl => "CL",
            Kind::Clr => "CLR",
            Kind::Ack1 => "ACK(1)",
            Kind::Ack2 => "ACK(2)",
            Kind::Nak1 => "NAK(1)",
            Kind::Nak2 => "NAK(2)",
            Kind::Nak3 => "NAK(3)",
            Kind::Nak4 => "NAK(4)",
        }
    }
}

/// What a transaction is opened with.
#[derive(Clone, Copy, Debug, PartialEq, Eq)]
pub enum Start {
    Signal(Signal),
    Ms,
    Cl,
    Clr,
}

impl Start {
    /// In the order of their numbers.
    pub const ALL: [Start; 7] = [
        Start::Signal(Signal::MrE),
        Start::Signal(Signal::MrD),
        Start::Signal(Signal::CrE),
        Start::Signal(Signal::CrD),
        Start::Ms,
        Start::Cl,
        Start::Clr,
    ];

    pub fn name(self) -> &'static str {
        match self {
            Start::Signal(signal) => signal.name(),
            Start::Ms => Kind::Ms.name(),
            Start::Cl => Kind::Cl.name(),
            Start::Clr => Kind::Clr.name(),
        }
    }
}

/// What comes to the station. The octets of a field stand beside it.
#[derive(Clone, Copy, Debug, PartialEq, Eq)]
pub enum Event {
    Start(Start),
    Signal(Signal),
    Field,
    InvalidFrame,
    AnswerTone,
    Reset,
}

impl Event {
    /// Every event there is, with all that may be started or heard.
    pub fn all() -> impl Iterator<Item = Event> {
        let starts = Start::ALL.into_iter().map(Event::Start);
        let signals = Signal::ALL.into_iter().map(Event::Signal);
        let others = [
            Event::Field,
            Event::InvalidFrame,
            Event::AnswerTone,
            Event::Reset,
        ];
        starts.chain(signals).chain(others)
    }
}

/// What is sent when MR_e is heard.
#[derive(Clone, Copy, Debug, PartialEq, Eq)]
pub enum OnMrE {
    Ms,
    MrD,
    CrD,
}

/// What is sent when CR_d is heard.
#[derive(Clone, Copy, Debug, PartialEq, Eq)]
pub enum OnCrD {
    Cl,
    Clr,
}

/// What is sent when CR_e is heard.
#[derive(Clone, Copy, Debug, PartialEq, Eq)]
pub enum OnCrE {
    AsOnCrD,
    CrD,
}

/// What is sent when MR_d answers our MR_e.
#[derive(Clone, Copy, Debug, PartialEq, Eq)]
pub enum OnMrD {
    Ms,
    CrD,
}

#[derive(Clone, Copy, Debug, PartialEq, Eq)]
pub struct Settings {
    pub v8: bool,
    pub short_v8: bool,
    pub ack: bool,
    pub on_mr_e: OnMrE,
    pub on_cr_d: OnCrD,
    pub on_cr_e: OnCrE,
    pub on_mr_d: OnMrD,
}

impl Settings {
    /// How many values each setting has, in the order of a request.
    pub const VALUES: [usize; 7] = [2, 2, 2, 3, 2, 2, 2];

    /// How many different settings there are.
    pub const COUNT: usize = 192;

    /// The settings of this number below `COUNT`.
    pub fn numbered(number: usize) -> Settings {
        let mut left = number;
        let values = Settings::VALUES.map(|values| {
            let value = left % values;
            left /= values;
            value
        });
        Settings::of_values(values)
    }

    /// The settings with these values, in the order of a request.
    pub fn of_values(
        [v8, short_v8, ack, on_mr_e, on_cr_d, on_cr_e, on_mr_d]: [usize; 7],
    ) -> Settings {
        Settings {
            v8: v8 == 1,
            short_v8: short_v8 == 1,
            ack: ack == 1,
            on_mr_e: [OnMrE::Ms, OnMrE::MrD, OnMrE::CrD][on_mr_e],
            on_cr_d: [OnCrD::Cl, OnCrD::Clr][on_cr_d],
            on_cr_e: [OnCrE::AsOnCrD, OnCrE::CrD][on_cr_e],
            on_mr_d: [OnMrD::Ms, OnMrD::CrD][on_mr_d],
        }
    }

    /// One octet each, in the order of a request.
    pub fn octets(&self) -> [u8; 7] {
        [
            u8::from(self.v8),
            u8::from(self.short_v8),
            u8::from(self.ack),
            self.on_mr_e as u8,
            self.on_cr_d as u8,
            self.on_cr_e as u8,
            self.on_mr_d as u8,
        ]
    }
}
