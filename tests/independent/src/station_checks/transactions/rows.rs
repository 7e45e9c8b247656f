//! Table 7 of V.8 bis, and the settings that lead to each of its rows.

use crate::station::words::*;
use Sent::{Cl, ClMs, Clr, Ms, Verdict};

/// What a station sends in its turn.
#[derive(Clone, Copy, Debug, PartialEq, Eq, PartialOrd, Ord)]
pub enum Sent {
    MrE,
    MrD,
    CrE,
    CrD,
    Ms,
    Cl,
    Clr,
    ClMs,
    /// ACK(1), NAK(2), NAK(3), or nothing where ACK(1) is not asked for.
    Verdict,
}

/// One row: the stations send in turn, the initiating one first.
#[derive(Debug, PartialEq, Eq, PartialOrd, Ord)]
pub struct Row {
    pub name: &'static str,
    pub sent: &'static [Sent],
}

const fn row(name: &'static str, sent: &'static [Sent]) -> Row {
    Row { name, sent }
}

use Sent::{CrD, CrE, MrD, MrE};

pub const ROWS: [Row; 16] = [
    row("1 with MR_e", &[MrE, Ms, Verdict]),
    row("1 with MR_d", &[MrD, Ms, Verdict]),
    row("2 with CR_e", &[CrE, Cl, Ms, Verdict]),
    row("2 with CR_d", &[CrD, Cl, Ms, Verdict]),
    row("3 with CR_e", &[CrE, Clr, ClMs, Verdict]),
    row("3 with CR_d", &[CrD, Clr, ClMs, Verdict]),
    row("4", &[Ms, Verdict]),
    row("5", &[Cl, Ms, Verdict]),
    row("6", &[Clr, Cl, Ms, Verdict]),
    row("7", &[MrE, MrD, Ms, Verdict]),
    row("8", &[MrE, MrD, CrD, Cl, Ms, Verdict]),
    row("9", &[MrE, MrD, CrD, Clr, ClMs, Verdict]),
    row("10", &[MrE, CrD, Cl, Ms, Verdict]),
    row("11", &[MrE, CrD, Clr, ClMs, Verdict]),
    row("12", &[CrE, CrD, Cl, Ms, Verdict]),
    row("13", &[CrE, CrD, Clr, ClMs, Verdict]),
];

impl Row {
    /// The turn in which the mode is selected.
    pub fn selecting_turn(&self) -> usize {
        self.sent.len() - 2
    }

    /// Whether the far side's list comes before the selection.
    pub fn has_lists(&self) -> bool {
        self.sent.contains(&Cl) || self.sent.contains(&Clr)
    }

    /// Changes those settings of both stations that the row depends on.
    pub fn settle(&self, settings: &mut [Settings; 2]) {
        for turn in 1..self.sent.len() {
            let (heard, answer) = (self.sent[turn - 1], self.sent[turn]);
            settle(&mut settings[turn % 2], turn, heard, answer);
        }
    }
}

fn settle(settings: &mut Settings, turn: usize, heard: Sent, answer: Sent) {
    match (heard, answer) {
        (MrE, Ms) => settings.on_mr_e = OnMrE::Ms,
        (MrE, MrD) => settings.on_mr_e = OnMrE::MrD,
        (MrE, CrD) => settings.on_mr_e = OnMrE::CrD,
        // To MR_d as an opening there is one answer only.
        (MrD, Ms) if turn > 1 => settings.on_mr_d = OnMrD::Ms,
        (MrD, CrD) => settings.on_mr_d = OnMrD::CrD,
        (CrE, CrD) => settings.on_cr_e = OnCrE::CrD,
        (CrE, Cl | Clr) => settings.on_cr_e = OnCrE::AsOnCrD,
        _ => {}
    }
    match (heard, answer) {
        (CrE | CrD, Cl) => settings.on_cr_d = OnCrD::Cl,
        (CrE | CrD, Clr) => settings.on_cr_d = OnCrD::Clr,
        _ => {}
    }
}

impl Sent {
    pub fn signal(self) -> Option<Signal> {
        match self {
            MrE => Some(Signal::MrE),
            MrD => Some(Signal::MrD),
            CrE => Some(Signal::CrE),
            CrD => Some(Signal::CrD),
            _ => None,
        }
    }

    /// What a station that opens with this is told to start, if it can be.
    pub fn start(self) -> Option<Start> {
        match self {
            Ms => Some(Start::Ms),
            Cl => Some(Start::Cl),
            Clr => Some(Start::Clr),
            ClMs | Verdict => None,
            _ => self.signal().map(Start::Signal),
        }
    }
}

#[cfg(test)]
mod tests {
    use super::*;

    #[test]
    fn every_row_ends_with_a_selection_and_its_verdict() {
        for row in &ROWS {
            let selecting = row.sent[row.selecting_turn()];
            assert!(matches!(selecting, Ms | ClMs), "{}", row.name);
            assert_eq!(row.sent.last(), Some(&Verdict));
            assert!(row.sent[0].start().is_some());
        }
    }

    #[test]
    fn settings_of_the_ninth_row() {
        let mut both = [Settings::numbered(0); 2];
        ROWS[11].settle(&mut both);
        assert_eq!(both[0].octets(), [0, 0, 0, 0, 0, 0, 1]);
        assert_eq!(both[1].octets(), [0, 0, 0, 1, 1, 0, 0]);
    }

    #[test]
    fn lists_come_before_most_selections() {
        let without = ROWS.iter().filter(|row| !row.has_lists());
        let without: Vec<&str> = without.map(|row| row.name).collect();
        assert_eq!(without, ["1 with MR_e", "1 with MR_d", "4", "7"]);
    }
}
