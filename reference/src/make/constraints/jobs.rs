//! Job files of version 2 for the program: good ones and every refusal that it can print.

use super::super::cases::T;
use super::super::jobs::{damaged, wrong_files};
use super::super::shapes::{small, words};
use super::cases::counts;
use super::limits::largest;
use super::shapes::{constrained, constraints, with};
use crate::job;
use crate::random::Random;

fn file(words: &[u32]) -> Vec<u8> {
    job::file(2, words)
}

/// CNFs of exactly 8,192 words, of one more, and of two more for one constraint more.
fn room_edges(random: &mut Random, all: &mut Vec<Vec<u8>>) {
    let atom = [0, 1, 0];
    let mut base = words(random, [2, 4, 810, 0, 0]);
    base[3] = 2;
    for latch in 0..4 {
        base[6 + 2 * latch] = 2;
    }
    base.extend([atom, atom].concat());
    for count in [5, 6] {
        let constraints = constraints(random, &base, count);
        all.push(file(&with(&base, &constraints)));
    }
    let mut one_over = words(random, [2, 0, 811, 0, 0]);
    one_over[3] = 3;
    one_over.extend([atom, atom, atom].concat());
    all.push(file(&with(&one_over, &[1, 0, 2, 1623, 1])));
    all.push(file(&largest()));
}

/// Files with a wrong version and a wrong length: the version comes first.
fn two_faults(all: &mut Vec<Vec<u8>>) {
    for version in [0, 3, 255] {
        for (place, byte) in [(1, 1), (4, 0), (4, 49)] {
            let mut bytes = job::file(version, &with(&T, &[3]));
            bytes[place] = byte;
            all.push(bytes);
        }
    }
}

/// All job files of version 2 of a seed; COUNT is the number of random problems.
pub fn job_files(seed: u64, count: usize) -> Vec<Vec<u8>> {
    let mut random = Random::new(seed);
    let random = &mut random;
    let mut all = Vec::new();
    wrong_files(&file(&with(&T, &[3])), &[0, 1, 3, 130, 255], &mut all);
    two_faults(&mut all);
    room_edges(random, &mut all);
    for (words, _) in counts() {
        all.push(file(&words));
    }
    for _ in 0..count {
        let base = small(random, 20);
        let good = constrained(random, &base);
        all.push(file(&good));
        all.push(damaged(random, 2, good.clone()));
        if random.one_in(5) {
            // Words of one version in a file of the other.
            all.extend([file(&base), job::file(1, &good)]);
        }
    }
    all
}
