//! Requests of kind `constraint-witness`: every candidate of small problems of version 2, some of which break a
//! constraint at a chosen position.

use super::super::problems::run_bytes;
use super::super::shapes::{looping, small};
use super::super::witnesses::every_witness;
use super::shapes::{constraints, literals_false_first, with, VERSION};
use crate::problem::check;
use crate::random::Random;
use crate::requests::Request;
use crate::witness::run;

/// A literal that is first false at the first, a middle or the last position of a run, if there is one.
fn broken(random: &mut Random, words: &[u32]) -> Option<u32> {
    let problem = check(1, words).expect("made well formed");
    let bytes = run_bytes(random, &problem);
    let run = run(&problem, &bytes);
    let k = problem.k;
    let position = random.pick(&[0, k / 2, k.div_ceil(2), k, k]);
    match literals_false_first(&problem, &run, Some(position)) {
        found if found.is_empty() => None,
        found => Some(random.pick(&found)),
    }
}

/// A small problem with up to 3 constraints; the one that is chosen to be broken has any place among them.
pub fn subject(random: &mut Random) -> Vec<u32> {
    let words = if random.one_in(3) { small(random, 5) } else { looping(random) };
    let count = random.below(3);
    let mut made = constraints(random, &words, count);
    if !random.one_in(4) {
        if let Some(literal) = broken(random, &words) {
            made.insert(random.below(count + 1), literal);
        }
    }
    with(&words, &made)
}

pub fn requests(random: &mut Random, count: usize) -> Vec<Request> {
    let mut out = Vec::new();
    for _ in 0..count {
        let words = subject(random);
        every_witness(random, VERSION, &words, &mut out);
    }
    out
}
