//! Requests of kind `witness`: every candidate of small problems, and damaged bytes.

use super::shapes::{looping, small};
use crate::problem::check;
use crate::random::Random;
use crate::requests::Request;
use crate::witness::candidates;

fn damaged(random: &mut Random, good: &[u8], k: usize) -> Vec<Vec<u8>> {
    let mut all = vec![vec![], good[..good.len() - 1].to_vec(), [good, &[0]].concat()];
    for first in [k as u8 + 1, k as u8 + 2, 255] {
        let mut bytes = good.to_vec();
        bytes[0] = first;
        all.push(bytes);
    }
    for place in 1..good.len() {
        for value in [2, 255] {
            let mut bytes = good.to_vec();
            bytes[place] = value;
            all.push(bytes.clone());
            // A second bad byte: the first one decides.
            let other = random.below(good.len());
            bytes[other] = 254;
            all.push(bytes);
        }
    }
    all
}

/// Every candidate of the problem, and damage to a random one.
pub fn every_witness(random: &mut Random, version: u32, words: &[u32], out: &mut Vec<Request>) {
    let problem = check(version, words).expect("made well formed");
    let mut all = candidates(&problem);
    let one = all[random.below(all.len())].clone();
    all.extend(damaged(random, &one, problem.k));
    for witness in all {
        out.push(Request::Witness { version, problem: words.to_vec(), witness });
    }
}

pub fn requests(random: &mut Random, count: usize) -> Vec<Request> {
    let mut out = Vec::new();
    for _ in 0..count {
        let words = if random.one_in(3) { small(random, 5) } else { looping(random) };
        every_witness(random, 1, &words, &mut out);
    }
    out
}
