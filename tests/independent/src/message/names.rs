//! The named parameters: those that Tables 5-1 to 5-3 and 6-1 to 6-10 of V.8
//! bis print and do not reserve.

use super::code::{Code, IDENTIFICATION, STANDARD};

/// The SPar(1) of Table 5-2.
const NETWORK_TYPE: u32 = 1;

/// The SPar(1)s of Tables 6-2a and 6-2b.
const DATA: u32 = 1;
const VOICE_AND_DATA: u32 = 2;
const H_324: u32 = 3;
const V_18: u32 = 4;
const T_30: u32 = 5;
const TELEPHONY: u32 = 6;
const T_101: u32 = 7;
const H_324_MULTILINK: u32 = 8;
const ADDITIONAL_CONNECTION: u32 = 9;

/// The SPar(2) of Table 6-5b.
const H_324_DATA: u32 = 1;

impl Code {
    /// What stands below an unnamed parameter is unnamed as well.
    pub fn is_named(self) -> bool {
        match (self.t, self.n) {
            (0, 0) => self.is_named_spar_1(),
            (_, 0) => self.is_named_spar_2(),
            _ => self.is_named_npar(),
        }
    }

    fn is_named_spar_1(self) -> bool {
        match self.f {
            IDENTIFICATION => self.s == NETWORK_TYPE,
            STANDARD => (DATA..=ADDITIONAL_CONNECTION).contains(&self.s),
            _ => false,
        }
    }

    fn is_named_spar_2(self) -> bool {
        let has_tables = matches!(self.s, H_324 | H_324_MULTILINK);
        self.f == STANDARD && has_tables && self.t == H_324_DATA
    }

    fn is_named_npar(self) -> bool {
        match (self.f, self.s, self.t) {
            // Table 5-1
            (IDENTIFICATION, 0, 0) => matches!(self.n, 1..=4 | 7),
            // Table 5-3
            (IDENTIFICATION, NETWORK_TYPE, 0) => matches!(self.n, 1..=3 | 6),
            (STANDARD, s, t) => is_named_standard_npar(s, t, self.n),
            _ => false,
        }
    }

    /// Whether it announces something in NS. Position 6 of an additional
    /// connection is a digit of its number.
    pub fn is_non_standard(self) -> bool {
        match (self.f, self.s, self.t) {
            (IDENTIFICATION | STANDARD, 0, 0) => self.n == 7,
            (IDENTIFICATION, NETWORK_TYPE, 0) => self.n == 6,
            (STANDARD, T_30, 0) => matches!(self.n, 6 | 12),
            (STANDARD, DATA..=H_324_MULTILINK, 0) => self.n == 6,
            _ => false,
        }
    }
}

fn is_named_standard_npar(s: u32, t: u32, n: u32) -> bool {
    match (s, t) {
        // Table 6-1
        (0, 0) => n == 7,
        // Tables 6-3a to 6-3d
        (DATA, 0) => matches!(n, 1..=9 | 11..=21),
        // Tables 6-4a to 6-4c
        (VOICE_AND_DATA, 0) => matches!(n, 1 | 2 | 4..=15),
        // Table 6-5a
        (H_324 | H_324_MULTILINK, 0) => matches!(n, 1..=3 | 6),
        // Tables 6-5c and 6-5d
        (H_324 | H_324_MULTILINK, H_324_DATA) => matches!(n, 1..=7),
        // Tables 6-6a and 6-6b
        (ADDITIONAL_CONNECTION, 0) => matches!(n, 4..=30),
        // Table 6-7
        (V_18, 0) => matches!(n, 1 | 2 | 6),
        // Table 6-8
        (TELEPHONY, 0) => matches!(n, 1..=3 | 6),
        // Table 6-9, with its fifth row taken as reserved
        (T_101, 0) => matches!(n, 1..=3 | 6),
        // Tables 6-10a and 6-10b
        (T_30, 0) => matches!(n, 1..=9 | 12),
        _ => false,
    }
}

#[cfg(test)]
mod tests {
    use super::*;
    use crate::message_checks::near_front;

    fn named(f: u32) -> Vec<Code> {
        near_front(f).filter(|code| code.is_named()).collect()
    }

    /// Counted in the tables: 5 + 1 + 4, and 1 + 9 with 20 for data, 14 for
    /// voice and data, twice 4 + 1 + 7, 27 for an additional connection, 3
    /// for V.18, 4 for telephony, 4 for T.101 and 10 for T.30.
    #[test]
    fn as_many_as_the_tables_have() {
        assert_eq!(named(IDENTIFICATION).len(), 10);
        assert_eq!(named(STANDARD).len(), 116);
    }

    #[test]
    fn no_name_below_what_has_none() {
        for code in [named(IDENTIFICATION), named(STANDARD)].concat() {
            assert!(code.parents().all(Code::is_named), "{code:?}");
        }
    }

    #[test]
    fn data_by_position() {
        let unnamed = (1..=40).filter(|&n| !Code::new(STANDARD, DATA, 0, n).is_named());
        let due = [10].into_iter().chain(22..=40);
        assert!(unnamed.eq(due));
    }

    #[test]
    fn non_standard_bits() {
        let fields = near_front(IDENTIFICATION).chain(near_front(STANDARD));
        let found: Vec<Code> = fields.filter(|code| code.is_non_standard()).collect();
        let mut due = vec![Code::new(1, 0, 0, 7), Code::new(1, 1, 0, 6)];
        due.push(Code::new(2, 0, 0, 7));
        due.extend((1..=8).map(|s| Code::new(2, s, 0, 6)));
        due.push(Code::new(2, 5, 0, 12));
        due.sort();
        assert_eq!(found, due);
        assert!(found.into_iter().all(Code::is_named));
    }

    #[test]
    fn other_fields_have_no_names() {
        assert!(!Code::new(3, 1, 0, 0).is_named());
        assert!(!Code::new(3, 1, 0, 1).is_named());
        assert!(!Code::new(0, 3, 1, 0).is_named());
    }
}
