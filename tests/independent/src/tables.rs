//! The own table and the wishes, and how they are checked.

use crate::message::{minimal_parameters, Parameters};

const MOST_OWN_OCTETS: usize = 61;
const MOST_WISHES: usize = 16;

/// The answer numbers of the check.
mod number {
    pub const GOOD: u8 = 0;
    pub const BAD_OWN_TABLE: u8 = 2;
    pub const BAD_WISHES: u8 = 3;
    pub const OUTSIDE: u8 = 4;
}

/// One record of the wishes, with the place of its S field in their run.
#[derive(Clone, Debug, PartialEq)]
pub struct Wish {
    pub is_ready: bool,
    pub place: usize,
    pub length: usize,
    pub parameters: Parameters,
}

/// A good own table and good wishes.
#[derive(Clone, Debug, PartialEq)]
pub struct Tables {
    pub own: Parameters,
    pub wishes: Vec<Wish>,
}

/// What an own table and a wish may hold: an S field in minimal form with
/// named parameters and without non-standard bits.
fn permitted_parameters(octets: &[u8]) -> Option<Parameters> {
    let parameters = minimal_parameters(octets)?;
    let mut codes = parameters.iter();
    let all_permitted = codes.all(|code| code.is_named() && !code.is_non_standard());
    all_permitted.then_some(parameters)
}

fn own_table(octets: &[u8]) -> Option<Parameters> {
    permitted_parameters(octets).filter(|_| octets.len() <= MOST_OWN_OCTETS)
}

/// The wish in the record that begins at this place of the run.
fn wish_at(run: &[u8], record: usize) -> Option<Wish> {
    let (ready, length) = (*run.get(record)?, *run.get(record + 1)?);
    let (place, length) = (record + 2, usize::from(length));
    let parameters = permitted_parameters(run.get(place..place + length)?)?;
    let has_mode = parameters.iter().any(|code| code.s > 0);
    (ready <= 1 && has_mode).then_some(Wish {
        is_ready: ready == 1,
        place,
        length,
        parameters,
    })
}

fn wishes(run: &[u8]) -> Option<Vec<Wish>> {
    let mut wishes = Vec::new();
    let mut record = 0;
    while record < run.len() {
        let wish = wish_at(run, record)?;
        record = wish.place + wish.length;
        wishes.push(wish);
    }
    (wishes.len() <= MOST_WISHES).then_some(wishes)
}

impl Tables {
    /// The tables of these octets, or the number of what is bad. Wishes may
    /// still lie outside the own table.
    pub fn of_octets(own: &[u8], run: &[u8]) -> Result<Tables, u8> {
        Ok(Tables {
            own: own_table(own).ok_or(number::BAD_OWN_TABLE)?,
            wishes: wishes(run).ok_or(number::BAD_WISHES)?,
        })
    }

    /// The tables of these octets with every wish inside the own table, or the
    /// number of what is wrong.
    pub fn checked(own: &[u8], run: &[u8]) -> Result<Tables, u8> {
        let tables = Tables::of_octets(own, run)?;
        match tables.all_inside() {
            true => Ok(tables),
            false => Err(number::OUTSIDE),
        }
    }

    fn all_inside(&self) -> bool {
        let mut wishes = self.wishes.iter();
        wishes.all(|wish| wish.parameters.is_subset(&self.own))
    }
}

/// The number that the check of own table and wishes gives.
pub fn check(own: &[u8], run: &[u8]) -> u8 {
    Tables::checked(own, run).err().unwrap_or(number::GOOD)
}

#[cfg(test)]
mod tests {
    use super::*;
    use crate::message::Code;
    use crate::wire::written_out;

    fn is_good_own_table(text: &str) -> bool {
        own_table(&written_out(text)).is_some()
    }

    fn wishes_in(text: &str) -> Option<Vec<Wish>> {
        wishes(&written_out(text))
    }

    #[test]
    fn own_tables() {
        for good in ["80 80", "80 81 02 D0", "80 84 41 41 3F C1", "80 00 82 F8"] {
            assert!(is_good_own_table(good), "{good}");
        }
        let bad = [
            "",
            "80",
            "80 80 80",
            "00 80 80",
            "80 00 80",
            "80 81 02 10 C0",
            "80 81 42 C0",
            "80 81 02 D8",
            "80 84 40 42 C0",
            "80 00 84 C0",
            "C0 80",
            "80 81 E0",
            "80 90 00 E0",
        ];
        for text in bad {
            assert!(!is_good_own_table(text), "{text}");
        }
    }

    /// All that is permitted has 28 octets, so that an own table of more than
    /// 61 has something else that is bad as well.
    #[test]
    fn largest_own_table() {
        let own = "80 7F 83 1F 37 3F C7 1B 3F C7 47 41 3F C1 C3 1F C7 C7 C7 47 41 3F C1 \
                   38 3F 3F 3F FF";
        let parameters = own_table(&written_out(own)).expect("a good own table");
        assert_eq!(parameters.len(), 106);
    }

    #[test]
    fn wishes_have_their_places() {
        let wishes = wishes_in("00 04 80 81 02 D0 01 03 80 A0 C1").expect("good wishes");
        let parts = |wish: &Wish| (wish.is_ready, wish.place, wish.length);
        let parts: Vec<_> = wishes.iter().map(parts).collect();
        assert_eq!(parts, [(false, 2, 4), (true, 8, 3)]);
        let due = [Code::new(2, 6, 0, 0), Code::new(2, 6, 0, 1)];
        assert_eq!(wishes[1].parameters, Parameters::from(due));
        assert_eq!(wishes_in(""), Some(Vec::new()));
    }

    #[test]
    fn bad_wishes() {
        let bad = [
            "01",
            "01 00",
            "01 02 80 80",
            "02 03 80 81 C0",
            "FF 03 80 81 C0",
            "01 02 80 81 C0",
            "01 04 80 81 C0",
            "01 03 80 81 C0 00",
            "01 03 80 81 C0 00 03",
            "01 03 80 81",
            "01 04 80 81 40 C0",
            "01 03 80 81 E0",
            "01 04 80 00 84 C0",
        ];
        for text in bad {
            assert_eq!(wishes_in(text), None, "{text}");
        }
    }

    #[test]
    fn sixteen_wishes_and_no_more() {
        let wish = "00 03 80 81 C0";
        assert_eq!(wishes_in(&wish.repeat(16)).map(|all| all.len()), Some(16));
        assert_eq!(wishes_in(&wish.repeat(17)), None);
    }

    #[test]
    fn refusals_in_their_order() {
        let number = |own, run| check(&written_out(own), &written_out(run));
        assert_eq!(number("80 81 E0", "02"), 2);
        assert_eq!(number("80 81 C2", "02"), 3);
        assert_eq!(number("80 81 C2", "01 03 80 81 C1 02"), 3);
        assert_eq!(number("80 81 C2", "01 03 80 81 C1"), 4);
        assert_eq!(number("80 81 C2", "01 03 80 81 C2 00 03 80 81 C1"), 4);
        assert_eq!(number("80 81 C2", "01 03 80 81 C2 00 03 80 81 C0"), 0);
        assert_eq!(number("80 80", ""), 0);
    }
}
