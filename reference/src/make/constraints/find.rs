//! Requests of kind `constraint-find`: call 6 on problems of version 2, with rooms of every sort, and on damaged words.

use super::super::find::{self, find, needed};
use super::super::problems::damage;
use super::shapes::{constrained, VERSION};
use crate::random::Random;
use crate::requests::Request;

/// Problem `number` of those that call 6 is tried on, with constraints.
pub fn subject(random: &mut Random, number: usize) -> Vec<u32> {
    let words = find::subject(random, number);
    constrained(random, &words)
}

pub fn requests(random: &mut Random, count: usize) -> Vec<Request> {
    let mut out = Vec::new();
    for number in 0..count {
        let words = subject(random, number);
        let needed = needed(VERSION, &words);
        out.push(find(VERSION, &words, needed + random.pick(&[0, 0, 1, 9])));
        out.push(find(VERSION, &words, random.pick(&[0, needed / 2, needed - 1, needed - 1])));
        let mut worse = words.clone();
        damage(random, VERSION, &mut worse);
        out.push(find(VERSION, &worse, random.below(needed + 4)));
        if number % 20 == 10 {
            let version = random.pick(&[0, 3, 255, 256, 258, 1 << 25, u32::MAX]);
            out.push(find(version, &words, random.below(needed + 4)));
        }
    }
    out
}
