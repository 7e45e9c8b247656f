//! The verdict on an MS.

use super::drawn::*;
use super::requests::Far;
use crate::bench::{Case, Check};
use crate::message::{Code, Parameters};
use crate::message_checks::layout::Layout;
use crate::random::Random;

pub fn checks() -> Vec<Check> {
    vec![
        Check::of_cases("verdict: fits a ready wish", fits_ready),
        Check::of_cases("verdict: fits only wishes not ready", fits_not_ready),
        Check::of_cases("verdict: fits wishes of both kinds", fits_both),
        Check::of_cases("verdict: no SPar(1)", no_mode),
        Check::of_cases("verdict: an unnamed parameter more", unnamed_more),
        Check::of_cases("verdict: a named parameter more", named_more),
        Check::of_cases("verdict: spread over two wishes", spread),
        Check::of_cases("verdict: no wishes", no_wishes),
        Check::of_cases("verdict: anything", anything),
    ]
}

/// The verdict on an MS with these S parameters, as it came and struck.
fn on_selection(random: &mut Random, drawn: &Drawn, selected: &Parameters) -> [Case; 2] {
    let selection = far_selection(random, selected);
    [Far::of(&selection), Far::struck(&selection)].map(|far| drawn.verdict(&far))
}

/// Wishes, the own table being of no account, with one chosen among them.
fn with_chosen(random: &mut Random) -> (Drawn, usize) {
    let mut drawn = Drawn::some_wishes(random);
    if random.bit() {
        drawn.own = some_parameters(random);
    }
    let chosen = random.below(drawn.wishes.len());
    (drawn, chosen)
}

fn fits_ready(random: &mut Random) -> Vec<Case> {
    let mut cases = Vec::new();
    for _ in 0..1500 {
        let (mut drawn, chosen) = with_chosen(random);
        drawn.wishes[chosen].is_ready = true;
        let selected = from_wish(random, &drawn.wishes[chosen]);
        let both = on_selection(random, &drawn, &selected);
        cases.extend(both.map(|case| case.due(0)));
    }
    cases
}

fn fits_not_ready(random: &mut Random) -> Vec<Case> {
    let mut cases = Vec::new();
    for _ in 0..1200 {
        let (mut drawn, chosen) = with_chosen(random);
        let selected = from_wish(random, &drawn.wishes[chosen]);
        for wish in &mut drawn.wishes {
            wish.is_ready &= !selected.is_subset(&wish.parameters);
        }
        let both = on_selection(random, &drawn, &selected);
        cases.extend(both.map(|case| case.due(2)));
    }
    cases
}

/// Two equal wishes, one ready and one not, in either order.
fn fits_both(random: &mut Random) -> Vec<Case> {
    let mut cases = Vec::new();
    for _ in 0..400 {
        let (mut drawn, chosen) = with_chosen(random);
        let ready = Wanted::new(true, &drawn.wishes[chosen].parameters);
        let not_ready = Wanted::new(false, &ready.parameters);
        let selected = from_wish(random, &ready);
        drawn.wishes.truncate(MOST_WISHES - 2);
        let place = random.below(drawn.wishes.len() + 1);
        drawn.wishes.insert(place, ready);
        let place = random.below(drawn.wishes.len() + 1);
        drawn.wishes.insert(place, not_ready);
        let both = on_selection(random, &drawn, &selected);
        cases.extend(both.map(|case| case.due(0)));
    }
    cases
}

/// Nothing in S, or NPar(1)s only.
fn no_mode(random: &mut Random) -> Vec<Case> {
    let mut cases = Vec::new();
    for turn in 0..400 {
        let (drawn, _) = with_chosen(random);
        let npars = (0..turn % 4).map(|_| Code::new(2, 0, 0, random.within(1, 14) as u32));
        let selected = npars.collect();
        let both = on_selection(random, &drawn, &selected);
        cases.extend(both.map(|case| case.due(3)));
    }
    cases
}

/// A wish's parameters and one that no wish has, in its modes or elsewhere.
fn unnamed_more(random: &mut Random) -> Vec<Case> {
    let mut cases = Vec::new();
    for turn in 0..1200 {
        let (drawn, chosen) = with_chosen(random);
        let mut selected = from_wish(random, &drawn.wishes[chosen]);
        if turn % 4 == 0 {
            selected = with_forbidden(random, &selected);
        } else {
            let modes: Vec<u32> = selected.iter().map(|code| code.s).collect();
            selected.insert(unnamed_in(random, &modes));
        }
        let both = on_selection(random, &drawn, &selected);
        cases.extend(both.map(|case| case.due(3)));
    }
    cases
}

/// A parameter just below one of the modes that no table names.
fn unnamed_in(random: &mut Random, modes: &[u32]) -> Code {
    loop {
        let s = random.pick(modes);
        let position = random.within(1, 36) as u32;
        let code = match random.below(3) {
            0 => Code::new(2, s, position, 0),
            _ => Code::new(2, s, 0, position),
        };
        if !code.is_named() {
            return code;
        }
    }
}

/// A wish's parameters and a permitted one that no wish has.
fn named_more(random: &mut Random) -> Vec<Case> {
    let mut cases = Vec::new();
    for _ in 0..800 {
        let (drawn, chosen) = with_chosen(random);
        let wished = drawn.wishes.iter().flat_map(|wish| &wish.parameters);
        let wished: Parameters = wished.copied().collect();
        let others: Vec<Code> = PERMITTED.difference(&wished).copied().collect();
        let mut selected = from_wish(random, &drawn.wishes[chosen]);
        selected.extend(with_parents([random.pick(&others)].into_iter()));
        let both = on_selection(random, &drawn, &selected);
        cases.extend(both.map(|case| case.due(3)));
    }
    cases
}

/// All that two wishes have together, where neither has all of it.
fn spread(random: &mut Random) -> Vec<Case> {
    let mut cases = Vec::new();
    for _ in 0..600 {
        let drawn = Drawn::inside(random, 2);
        let [one, other] = [0, 1].map(|place| &drawn.wishes[place].parameters);
        if one.is_subset(other) || other.is_subset(one) {
            continue;
        }
        let selected = one.union(other).copied().collect();
        let both = on_selection(random, &drawn, &selected);
        cases.extend(both.map(|case| case.due(3)));
    }
    cases
}

fn no_wishes(random: &mut Random) -> Vec<Case> {
    let mut cases = Vec::new();
    for _ in 0..150 {
        let drawn = Drawn::inside(random, 0);
        let selected = part_of(random, &drawn.own);
        let both = on_selection(random, &drawn, &selected);
        cases.extend(both.map(|case| case.due(3)));
    }
    cases
}

fn anything(random: &mut Random) -> Vec<Case> {
    let case = |turn: usize| {
        let drawn = Drawn::some(random);
        let selection = match turn % 4 {
            0 => Layout {
                kind: MODE_SELECT,
                ..Layout::mixed(random)
            },
            1 => {
                let selected = some_parameters(random);
                far_selection(random, &selected)
            }
            _ => {
                let part = part_of(random, &drawn.own);
                let selected = part_of(random, &part);
                far_selection(random, &selected)
            }
        };
        drawn.verdict(&Far::of(&selection))
    };
    (0..4000).map(case).collect()
}
