//! Requests of kind `limits`: problems at each limit and one past it, and the longest buffers.

use super::find::every_room;
use super::find_limits;
use super::problems::calls;
use super::shapes::{most, words, Head};
use crate::problem::{check, MOST, RELEASE, UNTIL};
use crate::random::Random;
use crate::requests::{Request, AREA_WORDS, CNF_WORDS, PROBLEM_WORDS, WITNESS_BYTES};

/// All limits of version 1.
const LARGEST: Head =
    [MOST[0] as usize, MOST[1] as usize, MOST[2] as usize, MOST[3] as usize, MOST[4] as usize];

/// Shapes whose CNF is long and mostly still fits.
const LONG: [Head; 10] = [
    [64, 0, 0, 1, 31],
    [0, 64, 0, 2, 31],
    [64, 64, 0, 3, 31],
    [0, 0, 1024, 2, 3],
    [3, 2, 1024, 5, 4],
    [0, 0, 0, 64, 15],
    [1, 1, 1, 40, 31],
    [0, 3, 150, 3, 31],
    [64, 64, 1024, 64, 0],
    [64, 64, 1024, 64, 31],
];

/// All limits, every reset fixed, 63 U or R nodes over one atom, every literal as large as it may be.
pub fn all_limits() -> Vec<u32> {
    let (inputs, latches, gates, nodes) = (MOST[0], MOST[1], MOST[2], MOST[3]);
    let width = inputs + latches + gates;
    let mut words = MOST[..5].to_vec();
    for latch in 0..latches {
        words.extend([2 * width + 1, latch % 2]);
    }
    for gate in 0..gates {
        let own = inputs + latches + gate + 1;
        words.extend([2 * own - 1, 2 * own - 2]);
    }
    words.extend([0, 2 * width + 1, 0]);
    for n in 1..nodes {
        words.extend([if n % 2 == 0 { UNTIL } else { RELEASE }, 0, n - 1]);
    }
    words
}

/// The all-limits problem: its CNF never fits, its witness is as long as one can be.
fn largest(out: &mut Vec<Request>) {
    let (version, problem) = (1, all_limits());
    out.push(Request::Check { version, problem: problem.clone() });
    for room in [0, CNF_WORDS] {
        out.push(Request::Cnf { version, problem: problem.clone(), room });
        let (by_numbers, by_clauses, refutation) = (3, 0, vec![i32::MIN]);
        let problem = problem.clone();
        out.push(Request::Refutation { version, problem, refutation, room, by_numbers, by_clauses });
    }
    let length = check(1, &problem).expect("well formed").witness_length();
    for first in [0, 1, 32, 33] {
        for (latch, bit) in [(0, 0), (1, 1)] {
            let mut witness = vec![bit; length];
            witness[0] = first;
            for (at, byte) in witness[1..65].iter_mut().enumerate() {
                *byte = if at % 2 == 0 { latch } else { 1 };
            }
            out.push(Request::Witness { version, problem: problem.clone(), witness });
        }
    }
}

/// Each of I, L, A, N, k at its limit and one past it, and N at 0; the lengths fit.
fn each_limit(random: &mut Random, out: &mut Vec<Request>) {
    for place in 0..5 {
        for past in [0, 1] {
            let mut head: Head = [1, 1, 1, 2, 1];
            head[place] = MOST[place] as usize + past;
            let words = words(random, head);
            calls(random, 1, 1, &words, out);
            every_room(1, &words, out);
        }
    }
    let none = words(random, [1, 1, 1, 0, 1]);
    calls(random, 1, 1, &none, out);
    every_room(1, &none, out);
}

/// Single words of a problem at all limits set to what is just allowed, just not, and the largest.
fn words_of_largest(random: &mut Random, out: &mut Vec<Request>) {
    let good = words(random, LARGEST);
    for _ in 0..60 {
        let from = random.pick(&[0, 5, 133, 2181]);
        let place = random.between(from, good.len() - 1);
        let most = most(1, &good, place);
        let mut problem = good.clone();
        problem[place] = random.pick(&[most, most + 1, u32::MAX]);
        out.push(Request::Check { version: 1, problem });
    }
}

/// CNFs and refutations of 65,536 words, and steps with as many literals and hints as fit.
fn long_refutations(out: &mut Vec<Request>) {
    let bare = |variables, cnf: Vec<i32>, refutation: Vec<i32>, by_numbers, by_clauses| Request::Bare {
        variables,
        cnf,
        refutation,
        by_numbers,
        by_clauses,
    };
    let units = [1, 0].repeat(32_768);
    let steps = [1, 0, 1, 0].repeat(16_384);
    out.push(bare(1, units.clone(), steps.clone(), 2, 49_152));
    out.push(bare(1, units.clone(), steps.clone(), 2, 49_151));
    out.push(bare(65_535, units, steps[1..].to_vec(), AREA_WORDS, AREA_WORDS));
    let empties = vec![0; 65_536];
    let from_empty = [vec![1, 0, 1, 0], [0, 1, 0].repeat(21_844)].concat();
    out.push(bare(1, empties, from_empty, 2, AREA_WORDS));
    let n = 21_000;
    let mut cnf: Vec<i32> = (1..=n).chain([0]).collect();
    cnf.extend((1..=n).flat_map(|variable| [-variable, 0]));
    let one_step: Vec<i32> = [0].into_iter().chain(2..=n + 1).chain([1, 0]).collect();
    let mut two_steps: Vec<i32> = (1..=n).rev().chain([0, 1, 0, 0]).collect();
    two_steps.extend((2..=n + 2).chain([0]));
    let size = n as u32 + 2;
    out.push(bare(n as u32, cnf.clone(), one_step, size, size));
    out.push(bare(n as u32, cnf.clone(), two_steps.clone(), size - 1, size + 1));
    two_steps[0] = -1;
    out.push(bare(n as u32, cnf, two_steps, size - 1, size + 1));
}

/// Buffers as long as the capacities.
fn full_buffers(out: &mut Vec<Request>) {
    let mut problem = all_limits();
    problem.resize(PROBLEM_WORDS as usize, 0);
    out.push(Request::Check { version: 1, problem: problem.clone() });
    let witness = vec![0; WITNESS_BYTES as usize];
    out.push(Request::Witness { version: 1, problem, witness: witness.clone() });
    out.push(Request::Witness { version: 1, problem: all_limits(), witness });
    out.push(Request::Refutation {
        version: 1,
        problem: super::T.to_vec(),
        refutation: vec![0; 65_536],
        room: CNF_WORDS,
        by_numbers: AREA_WORDS,
        by_clauses: AREA_WORDS,
    });
}

pub fn requests(random: &mut Random, count: usize) -> Vec<Request> {
    let mut out = Vec::new();
    largest(&mut out);
    long_refutations(&mut out);
    full_buffers(&mut out);
    find_limits::requests(&mut out);
    for _ in 0..count {
        each_limit(random, &mut out);
        words_of_largest(random, &mut out);
        for head in LONG {
            let words = words(random, head);
            calls(random, 1, 1, &words, &mut out);
        }
    }
    out
}
