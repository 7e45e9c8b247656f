//! The choice of a wish, with and without a far list.

use super::drawn::*;
use super::requests::Far;
use crate::bench::{same_replies, Bench, Case, Check};
use crate::message::Parameters;
use crate::random::Random;

const STRUCK_OR_NOT: &str = "choice: the same from a struck list";

pub fn checks() -> Vec<Check> {
    vec![
        Check::of_cases("choice without far list: any wishes", without_list),
        Check::of_cases("choice without far list: one ready", one_ready),
        Check::of_cases("choice without far list: none ready", none_ready),
        Check::of_cases("choice: the far side has everything", far_has_all),
        Check::of_cases("choice: the far list lacks one", far_lacks_one),
        Check::of_cases("choice: the own table lacks one", own_lacks_one),
        Check::of_cases("choice: none ready", none_ready_of_common),
        Check::of_cases("choice: equal wishes", equal_wishes),
        Check::of_cases("choice: empty far list", empty_list),
        Check::of_cases("choice: the far field alone", field_alone),
        Check::of_cases("choice: anything", anything),
        Check::new(STRUCK_OR_NOT, struck_or_not),
    ]
}

pub fn due_if(any_choice: bool) -> u8 {
    match any_choice {
        true => 0,
        false => 11,
    }
}

pub fn any_ready(drawn: &Drawn) -> bool {
    drawn.wishes.iter().any(|wish| wish.is_ready)
}

/// Wishes inside the own table, or any own table.
pub fn inside_or_not(random: &mut Random) -> Drawn {
    let drawn = Drawn::some(random);
    match random.bit() {
        true => drawn,
        false => Drawn {
            own: some_parameters(random),
            ..drawn
        },
    }
}

fn without_list(random: &mut Random) -> Vec<Case> {
    let case = |_| {
        let drawn = inside_or_not(random);
        drawn.first_ready().due(due_if(any_ready(&drawn)))
    };
    (0..3000).map(case).collect()
}

fn one_ready(random: &mut Random) -> Vec<Case> {
    let mut cases = Vec::new();
    for count in 1..=MOST_WISHES {
        for chosen in 0..count {
            let mut drawn = Drawn::inside(random, count).all_ready(false);
            drawn.wishes[chosen].is_ready = true;
            cases.push(drawn.first_ready().due(0));
        }
    }
    cases
}

fn none_ready(random: &mut Random) -> Vec<Case> {
    let case = |turn| {
        let drawn = Drawn::inside(random, turn % (MOST_WISHES + 1));
        drawn.all_ready(false).first_ready().due(11)
    };
    (0..1000).map(case).collect()
}

/// The choice from a far list with these parameters and others that no wish
/// has, as it came and struck.
fn from_list(random: &mut Random, drawn: &Drawn, far: &Parameters) -> [Case; 2] {
    let noisy = with_noise(random, far);
    let list = far_list(random, &noisy);
    [Far::of(&list), Far::struck(&list)].map(|far| drawn.choice(&far))
}

fn far_has_all(random: &mut Random) -> Vec<Case> {
    let mut cases = Vec::new();
    for _ in 0..2000 {
        let drawn = Drawn::some(random);
        let due = due_if(any_ready(&drawn));
        let more = drawn.own.union(&some_parameters(random)).copied().collect();
        let both = from_list(random, &drawn, &more);
        cases.extend(both.map(|case| case.due(due)));
    }
    cases
}

/// Equal ready wishes, all but one of whose parameters the others have; then
/// perhaps a ready wish that needs those only.
pub struct OneMissing {
    pub drawn: Drawn,
    pub others: Parameters,
    pub due: u8,
}

impl OneMissing {
    pub fn drawn(random: &mut Random) -> OneMissing {
        let mut drawn = Drawn::inside(random, 1).all_ready(true);
        let first = drawn.wishes[0].clone();
        let (rest, missing) = without_one(random, &first.parameters);
        let mut others = drawn.own.clone();
        others.retain(|code| *code != missing && code.parents().all(|above| above != missing));
        let has_second = !rest.is_empty() && random.bit();
        drawn.wishes = vec![first; random.within(1, 3)];
        if has_second {
            drawn.wishes.push(Wanted::new(true, &rest));
        }
        OneMissing {
            drawn,
            others,
            due: due_if(has_second),
        }
    }
}

fn far_lacks_one(random: &mut Random) -> Vec<Case> {
    let mut cases = Vec::new();
    for _ in 0..2500 {
        let OneMissing { drawn, others, due } = OneMissing::drawn(random);
        let both = from_list(random, &drawn, &others);
        cases.extend(both.map(|case| case.due(due)));
    }
    cases
}

fn own_lacks_one(random: &mut Random) -> Vec<Case> {
    let mut cases = Vec::new();
    for _ in 0..2500 {
        let OneMissing { drawn, others, due } = OneMissing::drawn(random);
        let far = drawn.own.clone();
        let drawn = Drawn {
            own: others,
            ..drawn
        };
        let both = from_list(random, &drawn, &far);
        cases.extend(both.map(|case| case.due(due)));
    }
    cases
}

fn none_ready_of_common(random: &mut Random) -> Vec<Case> {
    let mut cases = Vec::new();
    for _ in 0..600 {
        let drawn = Drawn::some(random).all_ready(false);
        let both = from_list(random, &drawn, &drawn.own);
        cases.extend(both.map(|case| case.due(11)));
    }
    cases
}

/// Equal wishes that are common, one or more of them ready.
fn equal_wishes(random: &mut Random) -> Vec<Case> {
    let mut cases = Vec::new();
    for count in 2..=MOST_WISHES {
        for chosen in 0..count {
            let mut drawn = Drawn::inside(random, 1);
            let wish = drawn.wishes[0].clone();
            drawn.wishes = vec![wish; count];
            let mut drawn = drawn.all_ready(false);
            for wish in &mut drawn.wishes[chosen..] {
                wish.is_ready = random.bit();
            }
            drawn.wishes[chosen].is_ready = true;
            let both = from_list(random, &drawn, &drawn.own);
            cases.extend(both.map(|case| case.due(0)));
        }
    }
    cases
}

fn empty_list(random: &mut Random) -> Vec<Case> {
    let mut cases = Vec::new();
    for _ in 0..400 {
        let drawn = Drawn::some(random);
        let both = from_list(random, &drawn, &Parameters::new());
        cases.extend(both.map(|case| case.due(11)));
    }
    cases
}

/// The S field of a far list as it is stored, at the front.
fn field_alone(random: &mut Random) -> Vec<Case> {
    let mut cases = Vec::new();
    for _ in 0..800 {
        let drawn = inside_or_not(random);
        let (far, _) = without_one(random, &drawn.own);
        let far = Far {
            octets: field(&far),
            place: 0,
        };
        cases.push(drawn.choice(&far));
    }
    cases
}

fn anything(random: &mut Random) -> Vec<Case> {
    let case = |_| {
        let drawn = inside_or_not(random);
        drawn.choice(&Far::of(&any_list(random, &drawn)))
    };
    (0..5000).map(case).collect()
}

/// The probe must make the same of a list that was struck and of one that
/// was not.
fn struck_or_not(bench: &mut Bench) -> Result<(), String> {
    let random = &mut Random::named(STRUCK_OR_NOT);
    let mut unstruck = Vec::new();
    let mut struck = Vec::new();
    for _ in 0..2500 {
        let drawn = inside_or_not(random);
        let list = any_list(random, &drawn);
        unstruck.push(drawn.choice(&Far::of(&list)).request);
        struck.push(drawn.choice(&Far::struck(&list)).request);
    }
    let from_unstruck = bench.ask(&unstruck)?;
    let from_struck = bench.ask(&struck)?;
    same_replies(&unstruck, &from_struck, &from_unstruck)
}
