//! A message and what the probe strikes it to must give the same reply from
//! the same state.

use super::drawn::faultless;
use super::requests::request;
use crate::bench::{same_replies, Bench, Check};
use crate::message_checks::message_written;
use crate::message_checks::requests::large_output;
use crate::random::Random;
use crate::station::table::Cause;
use crate::station::words::{Kind, Phase};
use crate::station::Situation;
use crate::striking_checks;

const STRUCK_OR_NOT: &str = "station: the same from a struck message";

pub fn checks() -> Vec<Check> {
    vec![Check::new(STRUCK_OR_NOT, struck_or_not)]
}

fn situations(random: &mut Random) -> Vec<Situation> {
    let mut situations = Vec::new();
    for phase in Phase::ALL {
        for kind in [Kind::Ms, Kind::Cl, Kind::Clr] {
            let one = |_| faultless(random, phase, Cause::Message(kind));
            situations.extend((0..150).map(one));
        }
    }
    situations
}

fn struck_or_not(bench: &mut Bench) -> Result<(), String> {
    let random = &mut Random::named(STRUCK_OR_NOT);
    let mut situations = situations(random);
    let unstruck: Vec<Vec<u8>> = situations.iter().map(request).collect();
    let striking: Vec<Vec<u8>> = situations
        .iter()
        .map(|situation| striking_checks::request(&situation.field, &large_output(random)))
        .collect();
    for (situation, reply) in situations.iter_mut().zip(bench.ask(&striking)?) {
        situation.field = message_written(&reply)?.to_vec();
    }
    let struck: Vec<Vec<u8>> = situations.iter().map(request).collect();
    let from_unstruck = bench.ask(&unstruck)?;
    let from_struck = bench.ask(&struck)?;
    same_replies(&unstruck, &from_struck, &from_unstruck)
}
