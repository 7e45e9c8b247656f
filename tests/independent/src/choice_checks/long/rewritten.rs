//! One meaning in a field of at most 64 octets and in a longer one.

use super::super::choices::inside_or_not;
use super::super::drawn::*;
use super::drawn::*;
use crate::bench::{Bench, Case, Check};
use crate::message::Parameters;
use crate::message_checks::layout::Field;
use crate::random::Random;

const SHORT_OR_LONG: &str = "choice: the same from a short far field and a long one";

pub fn checks() -> Vec<Check> {
    vec![Check::new(SHORT_OR_LONG, short_or_long)]
}

fn short_or_long(bench: &mut Bench) -> Result<(), String> {
    bench.compare(&pairs(1500)?)
}

/// So many pairs of requests with one meaning and one reply.
fn pairs(count: usize) -> Result<Vec<Case>, String> {
    let random = &mut Random::named(SHORT_OR_LONG);
    let mut cases = Vec::new();
    for _ in 0..count {
        let drawn = inside_or_not(random);
        let far = some_far(random, &drawn);
        let [short, long] = [short_field(random, &far), padded_field(random, &far)].map(|field| {
            let [_, far] = at_places(random, &field);
            drawn.choice(&far)
        });
        cases.push(long.known(&short.expected)?);
        cases.push(short);
    }
    Ok(cases)
}

/// Far parameters that have much in common with the wishes.
fn some_far(random: &mut Random, drawn: &Drawn) -> Parameters {
    let far = match random.below(3) {
        0 => drawn.own.clone(),
        1 => part_of(random, &drawn.own),
        _ => without_one(random, &drawn.own).0,
    };
    with_noise(random, &far)
}

fn short_field(random: &mut Random, far: &Parameters) -> Field {
    let field = Field::of_codes_somehow(random, far);
    match field.octets().len() < LEAST {
        true => field,
        false => Field::of_codes(far),
    }
}

fn padded_field(random: &mut Random, far: &Parameters) -> Field {
    loop {
        let length = random.within(LEAST, MOST);
        let field = Field::of_codes_somehow(random, far).padded(random, length);
        if !may_pass_last(&field) {
            return field;
        }
    }
}

#[cfg(test)]
mod tests {
    use super::*;
    use crate::message::far_parameters;

    #[test]
    fn both_fields_have_one_meaning() {
        let mut random = Random::named("one meaning");
        for _ in 0..500 {
            let parameters = some_parameters(&mut random);
            let far = with_noise(&mut random, &parameters);
            let short = short_field(&mut random, &far).octets();
            let long = padded_field(&mut random, &far).octets();
            assert!(short.len() < LEAST && long.len() >= LEAST);
            assert_eq!(far_parameters(&short).as_ref(), Some(&far));
            assert_eq!(far_parameters(&long).as_ref(), Some(&far));
        }
    }

    #[test]
    fn pairs_have_one_reply() {
        assert_eq!(pairs(300).map(|cases| cases.len()), Ok(600));
    }
}
