//! Job files of version 1 for the program: good ones and every refusal that it can print.

use super::shapes::{most, small, words};
use super::{all_limits, T};
use crate::job::{self, MOST_BYTES};
use crate::problem::header;
use crate::random::Random;

fn file(words: &[u32]) -> Vec<u8> {
    job::file(1, words)
}

/// Files whose header is wrong, or that are too long, made from a good short one; these versions are put in its place.
pub fn wrong_files(good: &[u8], versions: &[u8], all: &mut Vec<Vec<u8>>) {
    for length in 0..good.len() {
        all.push(good[..length].to_vec());
    }
    for &version in versions {
        let mut bytes = good.to_vec();
        bytes[0] = version;
        all.push(bytes.clone());
        all.push(bytes[..4].to_vec());
        bytes.resize(MOST_BYTES + 1, 0);
        all.push(bytes);
    }
    let last = good[4];
    let lengths = [(1, 1), (2, 1), (3, 1), (4, last - 1), (4, last + 1), (4, last + 4), (4, 0), (1, 255)];
    for (place, byte) in lengths {
        let mut bytes = good.to_vec();
        bytes[place] = byte;
        all.push(bytes);
    }
    for length in [6, 16_381, 16_383, 16_384, 16_385, 16_386, 40_000] {
        for right in [true, false] {
            let mut bytes = good.to_vec();
            bytes.resize(length, 0);
            if right {
                bytes[1..5].copy_from_slice(&(length as u32 - 5).to_be_bytes());
            }
            all.push(bytes);
        }
    }
}

/// CNFs of exactly 8,192 words, of one more, and of many more.
fn room_edges(random: &mut Random, all: &mut Vec<Vec<u8>>) {
    let atom = [0, 1, 0];
    let mut just_fits = words(random, [2, 4, 811, 0, 0]);
    just_fits[3] = 2;
    for latch in 0..4 {
        just_fits[6 + 2 * latch] = 2;
    }
    just_fits.extend([atom, atom].concat());
    all.push(file(&just_fits));
    let mut one_over = words(random, [2, 0, 812, 0, 0]);
    one_over[3] = 3;
    one_over.extend([atom, atom, atom].concat());
    all.push(file(&one_over));
    all.push(file(&all_limits()));
}

/// The words of a version with one replaced, taken away or added.
pub fn damaged(random: &mut Random, version: u8, mut words: Vec<u32>) -> Vec<u8> {
    let header = header(version.into()).expect("a known version");
    let place = random.below(words.len());
    match random.below(8) {
        0 => words.truncate(place),
        1 => words.push(0),
        2 => words.truncate(random.below(header + 1)),
        _ => {
            let most = most(version.into(), &words, place);
            words[place] = random.pick(&[0, most, most + 1, u32::MAX]);
        }
    }
    job::file(version, &words)
}

/// All job files of a seed; COUNT is the number of random problems.
pub fn job_files(seed: u64, count: usize) -> Vec<Vec<u8>> {
    let mut random = Random::new(seed);
    let random = &mut random;
    let mut all = Vec::new();
    wrong_files(&file(&T), &[0, 2, 255], &mut all);
    room_edges(random, &mut all);
    for _ in 0..count {
        let good = small(random, 20);
        all.push(file(&good));
        all.push(damaged(random, 1, good));
    }
    all
}
