//! Checks of the probe's row of requests as such: what is no request gets the
//! reply FF, what is no whole request gets none.

use crate::bench::{Bench, Case, Check, Layer, Outcome};
use crate::random::Random;
use crate::wire;

const NO_REQUEST: u8 = 0xFF;

/// Numbers of octets that no run and no buffer may have.
pub const TOO_LONG: [usize; 7] = [256, 257, 300, 511, 512, 1000, 20000];

const MALFORMED: Outcome = Outcome {
    operation: "malformed request",
    number: NO_REQUEST,
};

pub fn layer() -> Layer {
    Layer {
        checks: vec![
            Check::of_cases("requests: empty", empty),
            Check::of_cases("requests: unknown operation", unknown_operation),
            Check::new("requests: no input at all", no_input),
            Check::new("requests: input ends inside a request", ended_inside),
        ],
        outcomes: vec![MALFORMED],
        often_enough: 100,
    }
}

/// The case of a request that must get the reply FF.
pub fn malformed(request: Vec<u8>) -> Case {
    Case::new(request, vec![NO_REQUEST], MALFORMED)
}

/// The well-formed requests without their last octets, at every length but 0.
pub fn cut_short(requests: &[Vec<u8>]) -> Vec<Case> {
    let beginnings = |request: &Vec<u8>| {
        let lengths = 1..request.len();
        lengths
            .map(|length| malformed(request[..length].to_vec()))
            .collect::<Vec<Case>>()
    };
    requests.iter().flat_map(beginnings).collect()
}

/// The well-formed requests with 1 to 40 octets too many.
pub fn with_octets_left_over(random: &mut Random, requests: &[Vec<u8>]) -> Vec<Case> {
    let mut cases = Vec::new();
    for request in requests {
        let more = |count| malformed([request.as_slice(), &random.octets(count)].concat());
        cases.extend((1..=40).map(more));
    }
    cases
}

/// Well-formed requests stand between the others, to see that the row of
/// replies keeps in step.
pub fn between(
    random: &mut Random,
    malformed: Vec<Case>,
    well_formed: fn(&mut Random) -> Vec<Case>,
) -> Vec<Case> {
    let mut cases = Vec::new();
    for case in malformed {
        cases.push(case);
        if random.below(4) == 0 {
            cases.extend(well_formed(random));
        }
    }
    cases
}

fn empty(_: &mut Random) -> Vec<Case> {
    (0..20).map(|_| malformed(Vec::new())).collect()
}

/// Each operation that there is not, and some of them once more.
fn unknown_operation(random: &mut Random) -> Vec<Case> {
    let is_unknown = |operation: &u8| !matches!(operation, 1..=6 | 32..=37);
    let operations = (0..=255).filter(is_unknown).cycle().take(250);
    let request = |operation: u8| {
        let length = random.pick(&[0, 1, 4, 8, 100]);
        [vec![operation], random.octets(length)].concat()
    };
    operations.map(request).map(malformed).collect()
}

fn no_input(bench: &mut Bench) -> Result<(), String> {
    must_write(bench, Vec::new(), &[])
}

/// Two whole requests, then one that is cut at every place.
fn ended_inside(bench: &mut Bench) -> Result<(), String> {
    let whole = wire::joined(&[vec![], vec![0, 1, 2]]);
    let due = wire::joined(&[vec![NO_REQUEST], vec![NO_REQUEST]]);
    let last = wire::joined(&[vec![0; 12]]);
    for length in 1..last.len() {
        must_write(bench, [&whole, &last[..length]].concat(), &due)?;
    }
    Ok(())
}

fn must_write(bench: &mut Bench, input: Vec<u8>, due: &[u8]) -> Result<(), String> {
    let given = wire::hex(&input);
    let ended = bench.converse(input)?;
    if ended.output == due {
        return Ok(());
    }
    Err(format!(
        "input {given}, expected output {}, got {}",
        wire::hex(due),
        wire::hex(&ended.output)
    ))
}
