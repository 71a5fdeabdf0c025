//! Requests of kind `find`: call 6 on small problems with rooms of every sort, and on damaged words.

use super::problems::damage;
use super::shapes::{chain, far_past, looping, small, topped, with_sum};
use crate::problem::check;
use crate::random::Random;
use crate::requests::Request;

/// Sums of free resets and input bytes: for next to no search, a short and a longer one, and for none.
const FEW: [usize; 2] = [0, 1];
const SOME: [usize; 8] = [2, 3, 4, 5, 6, 7, 8, 9];
const MORE: [usize; 5] = [10, 11, 12, 13, 14];
const PAST: [usize; 6] = [17, 17, 18, 19, 24, 40];

pub fn find(version: u32, problem: &[u32], room: usize) -> Request {
    Request::Find { version, problem: problem.to_vec(), room: room as u32 }
}

/// The bytes of a good problem's witness; of other words, some number.
pub fn needed(version: u32, words: &[u32]) -> usize {
    check(version, words).map_or(4, |problem| problem.witness_length())
}

/// Call 6 with no room, with one byte too few, with just enough, and with more.
pub fn every_room(version: u32, words: &[u32], out: &mut Vec<Request>) {
    let needed = needed(version, words);
    out.extend([0, needed - 1, needed, needed + 3].map(|room| find(version, words, room)));
}

/// Problem `number` of those that call 6 is tried on.
pub fn subject(random: &mut Random, number: usize) -> Vec<u32> {
    // The longest searches are few.
    let words = match number % 100 {
        7 => with_sum(random, &[15]),
        32 => with_sum(random, &MORE),
        57 => with_sum(random, &[16]),
        _ => match random.below(20) {
            0..=4 => small(random, 8),
            5..=7 => looping(random),
            8..=9 => with_sum(random, &FEW),
            10..=12 => chain(random),
            13..=16 => with_sum(random, &SOME),
            17..=18 => with_sum(random, &PAST),
            _ => far_past(random),
        },
    };
    topped(random, words)
}

pub fn requests(random: &mut Random, count: usize) -> Vec<Request> {
    let mut out = Vec::new();
    for number in 0..count {
        let words = subject(random, number);
        let needed = needed(1, &words);
        out.push(find(1, &words, needed + random.pick(&[0, 0, 1, 9])));
        out.push(find(1, &words, random.pick(&[0, needed / 2, needed - 1, needed - 1])));
        let mut worse = words.clone();
        damage(random, 1, &mut worse);
        out.push(find(1, &worse, random.below(needed + 4)));
        if number % 20 == 10 {
            let version = random.pick(&[0, 2, 3, 255, 256, 257, 1 << 24, 1 << 24 | 1, u32::MAX]);
            for problem in [words, worse] {
                out.push(Request::Find { version, problem, room: random.below(needed + 4) as u32 });
            }
        }
    }
    out
}
