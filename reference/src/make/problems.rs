//! Requests of kind `problem`: small problems, good and damaged, with the calls 1, 2, 3 and 5.

use super::bare::size;
use super::shapes::{most, small};
use crate::problem::{check, header, Problem};
use crate::random::Random;
use crate::requests::{Request, CNF_WORDS};
use crate::{cnf, witness};

/// Bytes in range, each latch by its reset.
pub fn run_bytes(random: &mut Random, problem: &Problem) -> Vec<u8> {
    let mut bytes = vec![random.below(problem.k + 2) as u8];
    for &(_, reset) in &problem.latches {
        bytes.push(if reset == 2 { random.below(2) as u8 } else { reset as u8 });
    }
    bytes.resize_with(problem.witness_length(), || random.below(2) as u8);
    bytes
}

/// Witness bytes of a problem: random ones, at times with one byte or the length wrong.
pub fn witness_bytes(random: &mut Random, problem: &Problem) -> Vec<u8> {
    let mut bytes = Vec::new();
    for _ in 0..random.between(1, 12) {
        bytes = run_bytes(random, problem);
        if witness::judge(problem, &bytes).number == 0 {
            break;
        }
    }
    damage_bytes(random, &mut bytes);
    bytes
}

fn damage_bytes(random: &mut Random, bytes: &mut Vec<u8>) {
    let at = random.below(bytes.len());
    match random.below(16) {
        0 => bytes[at] = random.pick(&[2, 3, 7, 255]),
        1 => bytes[at] ^= 1,
        2 => bytes.push(0),
        3 => {
            bytes.pop();
        }
        _ => {}
    }
}

/// A few steps whose literals and hints are mostly in range.
pub fn some_refutation(random: &mut Random, variables: usize, clauses: usize) -> Vec<i32> {
    let mut words = Vec::new();
    for step in 0..random.below(3) {
        for _ in 0..random.below(3) {
            let variable = random.between(1, variables) as i32;
            words.push(random.pick(&[variable, -variable]));
        }
        words.push(0);
        for _ in 0..random.below(4) {
            words.push(random.between(1, clauses + step) as i32);
        }
        words.push(0);
    }
    if random.one_in(6) {
        words.push(random.pick(&[variables as i32 + 1, 1, -1, i32::MIN, 0]));
    }
    words
}

/// The calls 1, 2, 3 and 5 on problem words of any kind, told as of a version, with buffers as words made for
/// version `made` need them.
pub fn calls(random: &mut Random, version: u32, made: u32, words: &[u32], out: &mut Vec<Request>) {
    let problem = words.to_vec();
    out.push(Request::Check { version, problem: problem.clone() });
    let (needed, variables, clauses, witness) = match check(made, words) {
        Ok(good) => {
            let cnf = cnf::words(&good);
            let clauses = cnf.iter().filter(|&&word| word == 0).count();
            (cnf.len(), cnf::variables(&good), clauses, witness_bytes(random, &good))
        }
        Err(_) => (random.below(9), 5, 5, vec![0; random.below(4)]),
    };
    let room = |random: &mut Random| match needed > CNF_WORDS as usize {
        true => random.below(99) as u32,
        false => size(random, needed),
    };
    out.push(Request::Cnf { version, problem: problem.clone(), room: room(random) });
    out.push(Request::Witness { version, problem: problem.clone(), witness });
    let refutation = some_refutation(random, variables, clauses);
    let steps = super::bare::step_count(&refutation);
    out.push(Request::Refutation {
        version,
        problem,
        refutation,
        room: room(random),
        by_numbers: size(random, variables + 1),
        by_clauses: size(random, clauses + steps),
    });
}

/// The values that word `place` is replaced by.
fn replacements(version: u32, words: &[u32], place: usize) -> [u32; 4] {
    let most = most(version, words, place);
    [0, most, most.wrapping_add(1), u32::MAX]
}

/// One change to good words of a version: a word, the length, or the number of words.
pub fn damage(random: &mut Random, version: u32, words: &mut Vec<u32>) {
    let header = header(version).expect("a known version");
    let place = random.below(words.len());
    match random.below(8) {
        0 => words.push(random.below(3) as u32),
        1 => {
            words.pop();
        }
        2 => words.truncate(place),
        3 if random.one_in(3) => words.truncate(random.below(header)),
        4 => {
            let place = random.below(header);
            words[place] = replacements(version, words, place)[random.below(4)];
        }
        5 => {
            let place = random.below(header);
            words[place] = words[place].wrapping_add(random.pick(&[1, u32::MAX]));
        }
        _ => words[place] = replacements(version, words, place)[random.below(4)],
    }
}

/// Every word replaced in each way, every length, by call 1 alone.
pub fn every_damage(version: u32, words: &[u32], out: &mut Vec<Request>) {
    for place in 0..words.len() {
        for value in replacements(version, words, place) {
            let mut problem = words.to_vec();
            problem[place] = value;
            out.push(Request::Check { version, problem });
        }
        out.push(Request::Check { version, problem: words[..place].to_vec() });
    }
    let mut problem = words.to_vec();
    problem.push(0);
    out.push(Request::Check { version, problem });
}

/// Words that are damaged once or twice.
pub fn damaged(random: &mut Random, version: u32, words: &[u32]) -> Vec<u32> {
    let header = header(version).expect("a known version");
    let mut worse = words.to_vec();
    for _ in 0..random.between(1, 2) {
        if worse.len() >= header {
            damage(random, version, &mut worse);
        }
    }
    worse
}

pub fn requests(random: &mut Random, count: usize) -> Vec<Request> {
    let mut out = Vec::new();
    for number in 0..count {
        let words = small(random, 12);
        calls(random, 1, 1, &words, &mut out);
        let worse = damaged(random, 1, &words);
        calls(random, 1, 1, &worse, &mut out);
        if number % 20 == 0 {
            every_damage(1, &words, &mut out);
        }
        if number % 20 == 10 {
            let version = random.pick(&[0, 2, 3, 255, 256, 257, 1 << 24, 1 << 24 | 1, u32::MAX]);
            calls(random, version, 1, &words, &mut out);
            calls(random, version, 1, &worse, &mut out);
        }
    }
    out
}
