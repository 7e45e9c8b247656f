//! Messages without a fault: all that they carry must be found.

use super::layout::{self, Layout};
use super::requests::*;
use super::shapes;
use crate::bench::Case;
use crate::random::Random;

pub const FAMILIES: [(&str, Family); 7] = [
    ("trees of one to three levels", levels),
    ("every single parameter", single_parameters),
    ("every length", lengths),
    ("needless octets in every block", needless),
    ("SPar(2) block with nothing set", nothing_set),
    ("many branches", many_branches),
    ("long lists", long_lists),
];

fn laid_out(random: &mut Random, put: Put, layout: &Layout) -> Case {
    put(random, &layout.octets()).due(0)
}

fn levels(random: &mut Random, put: Put) -> Vec<Case> {
    let mut cases = Vec::new();
    for depth in 1..=3 {
        for _ in 0..800 {
            let layout = Layout::within(random, depth, MOST_OCTETS);
            cases.push(laid_out(random, put, &layout));
        }
    }
    for _ in 0..1200 {
        let layout = Layout::any(random);
        cases.push(laid_out(random, put, &layout));
    }
    cases
}

fn single_parameters(random: &mut Random, put: Put) -> Vec<Case> {
    let mut cases = Vec::new();
    for code in shapes::single_parameters() {
        let octets = Layout::with(random, code).octets();
        let due = if octets.len() > MOST_OCTETS { 2 } else { 0 };
        cases.push(put(random, &octets).due(due));
    }
    cases
}

fn lengths(random: &mut Random, put: Put) -> Vec<Case> {
    let mut cases = Vec::new();
    for length in 5..=MOST_OCTETS {
        for turn in 0..24 {
            let depth = 1 + turn % 3;
            let layout = Layout::within(random, depth, length);
            let layout = match turn % 2 {
                0 => layout.stretched(random, length, layout::nothing),
                _ => layout.stretched(random, length, layout::something),
            };
            cases.push(laid_out(random, put, &layout));
        }
    }
    cases
}

/// The minimal form, then the same with one to three octets more in each
/// block in turn.
fn needless(random: &mut Random, put: Put) -> Vec<Case> {
    let mut cases = Vec::new();
    for _ in 0..150 {
        let mut minimal = Layout::within(random, 3, MOST_OCTETS - 3).trimmed();
        cases.push(laid_out(random, put, &minimal));
        let npar_blocks = minimal.npar_blocks().len();
        for chosen in 0..npar_blocks + minimal.spar_blocks().len() {
            let mut longer = minimal.clone();
            let more = vec![0; random.within(1, 3)];
            match chosen.checked_sub(npar_blocks) {
                None => longer.npar_blocks()[chosen].extend(more),
                Some(place) => longer.spar_blocks()[place].extend(more),
            }
            cases.push(laid_out(random, put, &longer));
        }
    }
    cases
}

fn nothing_set(random: &mut Random, put: Put) -> Vec<Case> {
    all_laid_out(random, put, shapes::nothing_set)
}

fn many_branches(random: &mut Random, put: Put) -> Vec<Case> {
    all_laid_out(random, put, shapes::many_branches)
}

fn long_lists(random: &mut Random, put: Put) -> Vec<Case> {
    all_laid_out(random, put, shapes::full_blocks)
}

fn all_laid_out(
    random: &mut Random,
    put: Put,
    shapes: fn(&mut Random) -> Vec<Layout>,
) -> Vec<Case> {
    let layouts = shapes(random);
    layouts
        .iter()
        .map(|layout| laid_out(random, put, layout))
        .collect()
}
