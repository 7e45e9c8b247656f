//! Made-up columns, for the tests of the tables and of the picture.

use super::effects::{Effect, Way};
use super::Column;
use crate::station::words::Phase;

pub fn way(when: &str, effect: Effect) -> Way {
    Way {
        apart: None,
        when: when.to_string(),
        effect,
    }
}

pub fn entered(next: Phase, sent: &str, number: u8) -> Effect {
    Effect::Entered {
        next,
        sent: sent.to_string(),
        number,
    }
}

pub fn column(name: &str, cells: Vec<(Phase, Vec<Way>)>) -> Column {
    Column {
        verb: "hears",
        name: name.to_string(),
        cells,
    }
}
