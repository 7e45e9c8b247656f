//! The choice of a wish, and the verdict on a mode that the far side selects.

use crate::message::Parameters;
use crate::tables::{Tables, Wish};

/// A chosen wish, with its number from 1.
#[derive(Clone, Copy, Debug, PartialEq)]
pub struct Choice<'a> {
    pub number: usize,
    pub wish: &'a Wish,
}

#[derive(Clone, Copy, Debug, PartialEq)]
pub enum Verdict {
    Accepted,
    /// NAK(2): it fits only wishes that are not ready.
    NotReady,
    /// NAK(3)
    Unfit,
}

impl Tables {
    /// The choice without a far list.
    pub fn first_ready(&self) -> Option<Choice<'_>> {
        self.first(|wish| wish.is_ready)
    }

    /// The choice from a far list with these S parameters.
    pub fn first_ready_common(&self, far: &Parameters) -> Option<Choice<'_>> {
        self.first(|wish| {
            let wanted = &wish.parameters;
            wish.is_ready && wanted.is_subset(&self.own) && wanted.is_subset(far)
        })
    }

    fn first(&self, is_fit: impl Fn(&Wish) -> bool) -> Option<Choice<'_>> {
        let mut numbered = (1..).zip(&self.wishes);
        let (number, wish) = numbered.find(|(_, wish)| is_fit(wish))?;
        Some(Choice { number, wish })
    }

    /// The verdict on an MS with these S parameters.
    pub fn verdict(&self, selected: &Parameters) -> Verdict {
        let has_mode = selected.iter().any(|code| code.s > 0);
        let fits = |wish: &&Wish| has_mode && selected.is_subset(&wish.parameters);
        let fitting: Vec<&Wish> = self.wishes.iter().filter(fits).collect();
        if fitting.iter().any(|wish| wish.is_ready) {
            Verdict::Accepted
        } else if fitting.is_empty() {
            Verdict::Unfit
        } else {
            Verdict::NotReady
        }
    }
}

#[cfg(test)]
mod tests {
    use super::*;
    use crate::message::parameters_in_front;
    use crate::wire::written_out;

    /// Data with V.42 and V.34, telephony with voice.
    const OWN: &str = "80 A1 02 D0 C1";

    fn tables(wishes: &str) -> Tables {
        Tables::of_octets(&written_out(OWN), &written_out(wishes)).expect("good tables")
    }

    fn parameters(field: &str) -> Parameters {
        parameters_in_front(&written_out(field)).expect("a well-formed field")
    }

    fn number(choice: Option<Choice>) -> usize {
        choice.map_or(0, |choice| choice.number)
    }

    #[test]
    fn first_ready_wish() {
        let first_ready = |wishes| number(tables(wishes).first_ready());
        assert_eq!(first_ready(""), 0);
        assert_eq!(first_ready("00 03 80 81 C2"), 0);
        assert_eq!(first_ready("00 03 80 81 C2 01 03 80 A0 C0"), 2);
        assert_eq!(first_ready("01 03 80 81 C2 01 03 80 A0 C0"), 1);
    }

    #[test]
    fn common_wishes() {
        let wishes = "01 04 80 81 02 D0 00 03 80 81 C2 01 03 80 A0 C0";
        let chosen = |far| number(tables(wishes).first_ready_common(&parameters(far)));
        assert_eq!(chosen("80 81 02 D0"), 1);
        assert_eq!(chosen("80 A1 07 FF FF"), 1);
        assert_eq!(chosen("80 81 C2"), 0);
        assert_eq!(chosen("80 A1 C2 C0"), 3);
        assert_eq!(chosen("80 21 84 02 D8 C0 41 42 C4"), 1);
        assert_eq!(chosen("80 80"), 0);
    }

    /// Transparent data is not in the own table.
    #[test]
    fn a_wish_outside_is_not_common() {
        let wishes = "01 03 80 81 C1 01 03 80 81 C2";
        let choice = number(tables(wishes).first_ready_common(&parameters("80 81 C3")));
        assert_eq!(choice, 2);
    }

    #[test]
    fn chosen_wish_is_the_one_of_its_number() {
        let tables = tables("00 03 80 81 C2 01 03 80 A0 C1");
        let choice = tables.first_ready().expect("a choice");
        assert_eq!(choice.wish, &tables.wishes[1]);
        assert_eq!((choice.wish.place, choice.wish.length), (7, 3));
    }

    #[test]
    fn verdicts() {
        let ready = "01 04 80 81 02 D0";
        let not_ready = "00 04 80 81 02 D0";
        let both = "00 04 80 81 02 D0 01 03 80 81 C2";
        let on = |wishes, selected| tables(wishes).verdict(&parameters(selected));
        assert_eq!(on(ready, "80 81 02 D0"), Verdict::Accepted);
        assert_eq!(on(ready, "80 81 42 C0"), Verdict::Accepted);
        assert_eq!(on(ready, "80 81 C0"), Verdict::Accepted);
        assert_eq!(on(ready, "80 81 02 D8"), Verdict::Unfit);
        assert_eq!(on(ready, "80 81 40 41 C0"), Verdict::Unfit);
        assert_eq!(on(ready, "80 A1 C2 C0"), Verdict::Unfit);
        assert_eq!(on(ready, "81 81 C2"), Verdict::Unfit);
        assert_eq!(on(ready, "80 80"), Verdict::Unfit);
        assert_eq!(on(not_ready, "80 80"), Verdict::Unfit);
        assert_eq!(on(not_ready, "80 81 C2"), Verdict::NotReady);
        assert_eq!(on(both, "80 81 C2"), Verdict::Accepted);
        assert_eq!(on(both, "80 81 02 D0"), Verdict::NotReady);
        assert_eq!(on("", "80 81 C2"), Verdict::Unfit);
    }
}
