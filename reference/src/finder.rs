//! The finder of the first witness: answers 17, 18 and 29. The candidates go to the judge one by one, in
//! byte order.

use crate::problem::*;
use crate::witness::judge;

/// The most open bits of a problem that is searched.
pub const MOST_OPEN: usize = 16;

/// How many bits of a candidate nothing decides: the free resets, and the inputs at each position.
pub fn open_bits(problem: &Problem) -> usize {
    let free = problem.latches.iter().filter(|&&(_, reset)| reset == 2).count();
    free + problem.inputs * (problem.k + 1)
}

/// The bytes of a candidate with each fixed latch at its reset, and the places that are open.
fn open_places(problem: &Problem) -> (Vec<u8>, Vec<usize>) {
    let mut bytes = vec![0; problem.witness_length()];
    let mut open = Vec::new();
    for (place, byte) in bytes.iter_mut().enumerate().skip(1) {
        match problem.latches.get(place - 1) {
            Some(&(_, reset)) if reset != 2 => *byte = reset as u8,
            _ => open.push(place),
        }
    }
    (bytes, open)
}

/// The first witness in byte order. Candidates that start a latch against its reset are not made: the
/// judge says 8 of each.
pub fn first(problem: &Problem) -> Option<Vec<u8>> {
    let (mut bytes, open) = open_places(problem);
    for start in 0..=problem.k as u8 + 1 {
        bytes[0] = start;
        for number in 0..1u64 << open.len() {
            for (bit, &place) in open.iter().rev().enumerate() {
                bytes[place] = (number >> bit & 1) as u8;
            }
            if judge(problem, &bytes).number == 0 {
                return Some(bytes);
            }
        }
    }
    None
}

/// Writes the first witness at the start of the room; at every other answer the room is left alone.
pub fn find(problem: &Problem, room: &mut [u8]) -> Answer {
    let open = open_bits(problem);
    if open > MOST_OPEN {
        return refused(17, open);
    }
    let needed = problem.witness_length();
    if room.len() < needed {
        return refused(18, needed);
    }
    match first(problem) {
        Some(witness) => {
            room[..needed].copy_from_slice(&witness);
            yes(needed)
        }
        None => refused(29, 0),
    }
}
