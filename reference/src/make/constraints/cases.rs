//! Requests of kind `constraint-cases`: problems of version 2 made by hand, whose witnesses are counted, and words
//! with two faults.

use super::super::bare::step_count;
use super::super::cases::{counter, T};
use super::super::find::every_room;
use super::super::shapes::most;
use super::super::witnesses::every_witness;
use super::problems::all_calls;
use super::shapes::{with, VERSION};
use crate::cnf;
use crate::problem::check;
use crate::random::Random;
use crate::requests::Request;

/// The starter is input 1, the stop solenoid input 2, and gate 3 has both on: they are never both on.
fn starter(k: u32, nodes: &[u32]) -> Vec<u32> {
    let base = [&[2, 0, 1, nodes.len() as u32 / 3, k, 2, 4], nodes].concat();
    with(&base, &[7])
}

/// A latch that goes on and stays on, but is never on: past position 0 no run goes on.
pub fn stuck(k: u32) -> Vec<u32> {
    vec![0, 1, 0, 1, k, 1, 1, 0, 3, 0, 1, 0]
}

/// The counter that is never full: stuck at position 3.
pub fn never_full(k: u32) -> Vec<u32> {
    with(&counter(k, &[0, 1, 0]), &[13])
}

/// One input with these constraints.
fn input(k: u32, constraints: &[u32], nodes: &[u32]) -> Vec<u32> {
    with(&[&[1, 0, 0, nodes.len() as u32 / 3, k], nodes].concat(), constraints)
}

/// One free latch that keeps its value, always on, with these constraints.
fn kept(constraints: &[u32]) -> Vec<u32> {
    with(&[0, 1, 0, 2, 2, 2, 2, 0, 2, 0, 5, 0, 0], constraints)
}

/// Words of version 2 with the number of their witnesses.
pub fn counts() -> Vec<(Vec<u32>, usize)> {
    let (atom_2, always_2, f_2) = (&[0, 2, 0], &[0, 2, 0, 5, 0, 0], &[0, 2, 0, 4, 0, 0]);
    let (f_12, g_f_12) = ([0, 12, 0, 4, 0, 0], [0, 12, 0, 4, 0, 0, 5, 1, 0]);
    let full = |k, nodes: &[u32], constraints: &[u32]| with(&counter(k, nodes), constraints);
    vec![
        (starter(0, &[0, 7, 0]), 6),
        (starter(1, f_2), 15),
        (starter(1, &[0, 6, 0, 4, 0, 0]), 0),
        (stuck(0), 1),
        (stuck(1), 0),
        (stuck(2), 0),
        (never_full(1), 1),
        (never_full(2), 1),
        (never_full(3), 0),
        (full(3, &f_12, &[]), 2),
        (full(3, &f_12, &[1]), 2),
        (full(3, &f_12, &[1, 1, 1]), 2),
        (full(3, &f_12, &[1, 0]), 0),
        (full(3, &f_12, &[13]), 0),
        (full(3, &g_f_12, &[]), 1),
        (full(7, &f_12, &[1]), 3),
        (input(0, &[2], atom_2), 2),
        (input(0, &[3], atom_2), 0),
        (input(2, &[2], always_2), 3),
        (input(2, &[], always_2), 3),
        (input(2, &[2, 3], &[0, 1, 0]), 0),
        (input(1, &[2], f_2), 3),
        (input(1, &[], f_2), 9),
        (kept(&[2]), 3),
        (kept(&[]), 3),
        (kept(&[3]), 0),
        (with(&T, &[]), 0),
        (with(&T, &[3]), 0),
    ]
}

/// Two words of a problem with each part in it, every two of them, one past what they may be.
fn two_faults(out: &mut Vec<Request>) {
    let good = [1, 1, 1, 2, 1, 2, 4, 0, 2, 4, 6, 7, 0, 2, 0, 3, 0, 0];
    for first in 0..good.len() {
        for second in first + 1..good.len() {
            let mut problem = good.to_vec();
            for place in [first, second] {
                problem[place] = most(VERSION, &good, place) + 1;
            }
            out.push(Request::Check { version: VERSION, problem });
        }
    }
}

/// T without a constraint, with one that is met and with one that is not, and refutations for the one or the other.
fn case_t(out: &mut Vec<Request>) {
    let refutations: [&[i32]; 6] = [
        &[0, 2, 12, 5, 0],
        &[0, 2, 13, 6, 0],
        &[0, 3, 13, 6, 0],
        &[0, 2, 3, 0],
        &[-4, 0, 3, 6, 0, 0, 13, 14, 0],
        &[0, 1, 2, 0],
    ];
    let constraints: [&[u32]; 5] = [&[], &[3], &[2], &[0], &[1]];
    for constraints in constraints {
        let problem = with(&T, constraints);
        let read = check(VERSION, &problem).expect("made well formed");
        let words = cnf::words(&read);
        let clauses = cnf::clauses(&words).len();
        for refutation in refutations {
            for extra in [0, 3] {
                out.push(Request::Refutation {
                    version: VERSION,
                    problem: problem.clone(),
                    refutation: refutation.to_vec(),
                    room: words.len() as u32 + extra,
                    by_numbers: 7 + extra,
                    by_clauses: (clauses + step_count(refutation)) as u32 + extra,
                });
            }
        }
    }
}

pub fn requests(random: &mut Random, count: usize) -> Vec<Request> {
    let mut out = Vec::new();
    for _ in 0..count {
        case_t(&mut out);
        two_faults(&mut out);
        for (words, _) in counts() {
            every_witness(random, VERSION, &words, &mut out);
            for version in [VERSION, 0, 1, 3, 255, u32::MAX] {
                all_calls(random, version, &words, &mut out);
            }
            every_room(VERSION, &words, &mut out);
        }
    }
    out
}
