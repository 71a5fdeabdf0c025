//! Requests of kind `constraints`: small problems of version 2, good and damaged, with the calls 1, 2, 3, 5 and 6.

use super::super::bare::size;
use super::super::find::{find, needed};
use super::super::problems::{calls, damaged, every_damage};
use super::super::shapes::{most, small};
use super::shapes::{constrained, constraints_from, with, VERSION};
use crate::random::Random;
use crate::requests::Request;

/// The calls 1, 2, 3, 5 and 6 on words made for version 2, told as of a version.
pub fn all_calls(random: &mut Random, version: u32, words: &[u32], out: &mut Vec<Request>) {
    calls(random, version, VERSION, words, out);
    let room = size(random, needed(VERSION, words));
    out.push(find(version, words, room as usize));
}

/// The same request about the same words of version 1 as words of version 2, where D is 0.
pub fn twin(request: &Request) -> Request {
    let mut twin = request.clone();
    if let Some((version, problem)) = twin.problem_mut() {
        *version = VERSION;
        // Fewer than five words end before the place of D.
        if problem.len() >= 5 {
            problem.insert(5, 0);
        }
    }
    twin
}

/// Requests of version 1, each with its twin.
pub fn twins(random: &mut Random, words: &[u32]) -> Vec<(Request, Request)> {
    let mut first = Vec::new();
    for words in [words.to_vec(), damaged(random, 1, words)] {
        calls(random, 1, 1, &words, &mut first);
        let room = size(random, needed(1, &words));
        first.push(find(1, &words, room as usize));
    }
    first.into_iter().map(|request| (request.clone(), twin(&request))).collect()
}

/// A constraint and another word, before or after it, are both one past what they may be: the first decides.
fn two_faults(random: &mut Random, words: &[u32], out: &mut Vec<Request>) {
    if words[5] == 0 {
        return;
    }
    let constraint = constraints_from(words) + random.below(words[5] as usize);
    for _ in 0..6 {
        let mut problem = words.to_vec();
        for place in [constraint, random.between(6, words.len() - 1)] {
            problem[place] = most(VERSION, words, place) + 1;
        }
        out.push(Request::Check { version: VERSION, problem });
    }
}

pub fn requests(random: &mut Random, count: usize) -> Vec<Request> {
    let mut out = Vec::new();
    for number in 0..count {
        let base = small(random, 10);
        let words = constrained(random, &base);
        all_calls(random, VERSION, &words, &mut out);
        let worse = damaged(random, VERSION, &words);
        all_calls(random, VERSION, &worse, &mut out);
        two_faults(random, &words, &mut out);
        match number % 20 {
            0 => every_damage(VERSION, &words, &mut out),
            5 | 15 => out.extend(twins(random, &base).into_iter().flat_map(|(one, two)| [one, two])),
            10 => {
                let version = random.pick(&[0, 3, 4, 255, 256, 258, 1 << 24, 1 << 25, u32::MAX]);
                all_calls(random, version, &words, &mut out);
                all_calls(random, version, &worse, &mut out);
            }
            // Words of one version told as of the other.
            12 => {
                all_calls(random, 1, &words, &mut out);
                all_calls(random, VERSION, &base, &mut out);
                all_calls(random, 1, &with(&base, &[]), &mut out);
            }
            _ => {}
        }
    }
    out
}
