//! The choice from far fields of more than 64 octets.

mod behind;
mod blocks;
mod drawn;
mod fields;
mod known;
mod namesakes;
mod positions;
mod rewritten;

use crate::bench::Check;

pub fn checks() -> Vec<Check> {
    let mut checks = known::checks();
    checks.extend(fields::checks());
    checks.extend(behind::checks());
    checks.extend(positions::checks());
    checks.extend(blocks::checks());
    checks.extend(namesakes::checks());
    checks.extend(rewritten::checks());
    checks
}
