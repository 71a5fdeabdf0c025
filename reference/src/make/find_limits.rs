//! Call 6 for the kind `limits`: searches of sixteen open bits, one bit more, and the longest rooms.

use super::cases::counter;
use super::find::{every_room, find};
use super::limits::all_limits;
use super::T;
use crate::problem::{AND, ATOM, FINALLY, GLOBALLY, NEXT};
use crate::requests::{Request, PROBLEM_WORDS, WITNESS_BYTES};

/// Inputs, latches, how many of those are free, gates and k; each latch keeps its value.
pub struct Sizes(pub u32, pub u32, pub u32, pub u32, pub u32);

/// Formulas over atom 0, that all open bits are on, and atom 1, that one is not.
pub const ALWAYS: &[[u32; 3]] = &[[GLOBALLY, 0, 0]];
pub const ONCE: &[[u32; 3]] = &[[FINALLY, 0, 0]];
const THEN_NOT: &[[u32; 3]] = &[[NEXT, 1, 0], [AND, 0, 2]];
pub const NEVER: &[[u32; 3]] = &[[GLOBALLY, 0, 0], [FINALLY, 1, 0], [AND, 2, 3]];

/// Sixteen open bits, as inputs, latches or both, and W as large as it may then be; six in the longest run.
const SEARCHED: [(Sizes, &[[u32; 3]]); 11] = [
    (Sizes(0, 64, 16, 1024, 0), ALWAYS),
    (Sizes(16, 64, 0, 1024, 0), NEVER),
    (Sizes(1, 0, 0, 1, 15), ALWAYS),
    (Sizes(1, 0, 0, 1, 15), THEN_NOT),
    (Sizes(1, 0, 0, 1, 15), NEVER),
    (Sizes(2, 3, 0, 5, 7), ONCE),
    (Sizes(2, 3, 0, 5, 7), THEN_NOT),
    (Sizes(8, 1, 0, 9, 1), NEVER),
    (Sizes(1, 9, 8, 10, 7), ONCE),
    (Sizes(0, 64, 6, 1024, 31), ALWAYS),
    (Sizes(0, 64, 6, 1024, 31), NEVER),
];

/// One open bit more than is searched, and as many as there can be.
const PAST: [Sizes; 6] = [
    Sizes(0, 64, 17, 64, 0),
    Sizes(17, 0, 0, 17, 0),
    Sizes(1, 0, 0, 1, 16),
    Sizes(16, 64, 1, 1024, 0),
    Sizes(1, 9, 9, 10, 7),
    Sizes(64, 64, 64, 1024, 31),
];

/// The gates join all inputs and latches, so that the last is on where each open bit is on.
pub fn all_on(sizes: &Sizes, nodes: &[[u32; 3]]) -> Vec<u32> {
    let &Sizes(inputs, latches, free, gates, k) = sizes;
    let mut words = vec![inputs, latches, gates, nodes.len() as u32 + 2, k];
    let mut joined: Vec<u32> = (1..=inputs).map(|input| 2 * input).collect();
    for latch in 0..latches {
        // The free ones are spread over all.
        let is_free = (latch + 1) * free / latches > latch * free / latches;
        let reset = if is_free { 2 } else { latch % 2 };
        let own = 2 * (inputs + latch + 1);
        words.extend([own, reset]);
        joined.push(if reset == 0 { own + 1 } else { own });
    }
    let mut so_far = joined[0];
    for gate in 0..gates {
        let other = joined.get(gate as usize + 1).copied().unwrap_or(so_far);
        words.extend([so_far, other]);
        so_far = 2 * (inputs + latches + gate + 1);
    }
    words.extend([ATOM, so_far, 0, ATOM, so_far + 1, 0]);
    words.extend(nodes.concat());
    words
}

pub fn requests(out: &mut Vec<Request>) {
    for (sizes, nodes) in &SEARCHED {
        out.push(find(1, &all_on(sizes, nodes), WITNESS_BYTES as usize));
    }
    for sizes in &PAST {
        every_room(1, &all_on(sizes, ONCE), out);
    }
    every_room(1, &all_limits(), out);
    let (room, f_12) = (WITNESS_BYTES as usize, [0, 12, 0, 4, 0, 0]);
    for words in [T.to_vec(), counter(2, &f_12), counter(3, &f_12), counter(31, &f_12)] {
        out.push(find(1, &words, room));
    }
    let mut longest = all_limits();
    longest.resize(PROBLEM_WORDS as usize, 0);
    out.push(find(1, &longest, room));
}
