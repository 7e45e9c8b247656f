//! S fields by themselves, as own tables, wishes and far lists have them.

use super::code::{Code, STANDARD};
use super::tree::Branch;
use super::{has_fields, Message};
use std::collections::BTreeSet;

/// The parameters of an S field.
pub type Parameters = BTreeSet<Code>;

fn parameters(field: &Branch) -> Parameters {
    let codes = field.field_codes(STANDARD).into_iter();
    codes.map(Code::of).collect()
}

/// The parameters of the S field at the front of the octets.
pub fn parameters_in_front(mut octets: &[u8]) -> Option<Parameters> {
    Some(parameters(&Branch::take_field(&mut octets)?))
}

/// The parameters of an S field in minimal form with nothing behind it.
pub fn minimal_parameters(octets: &[u8]) -> Option<Parameters> {
    let field = Branch::take_field(&mut &octets[..])?;
    (field.field() == octets).then(|| parameters(&field))
}

/// Where the S field of an MS, CL or CLR begins, in octets from 0.
pub fn standard_place(octets: &[u8]) -> Option<usize> {
    let message = Message::of_octets(octets).ok()?;
    let (_, mut behind) = octets.split_first()?;
    Branch::take_field(&mut behind).filter(|_| has_fields(message.kind))?;
    Some(octets.len() - behind.len())
}
