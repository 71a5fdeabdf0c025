//! Call 3 for the kind `constraint-limits`: runs of 32 positions that break a constraint at each of them, and runs at
//! all limits.

use super::super::limits::all_limits;
use super::limits::MOST_CONSTRAINTS;
use super::shapes::{with, VERSION};
use crate::problem::{check, MOST};
use crate::requests::Request;

fn witness_request(problem: &[u32], witness: Vec<u8>) -> Request {
    Request::Witness { version: VERSION, problem: problem.to_vec(), witness }
}

/// Two inputs that have to be on at all positions; any loop closes. Each pair of positions is where they are off.
fn each_position(out: &mut Vec<Request>) {
    let positions = MOST[4] as usize + 1;
    let problem = with(&[2, 0, 0, 1, MOST[4], 0, 1, 0], &[1, 4, 2, 4]);
    for at in 0..positions {
        for (first, other) in [(0, at), (at + 1, positions - 1), (1, (at + 7) % positions)] {
            let mut witness = vec![1; 1 + 2 * positions];
            witness[0] = first as u8;
            witness[1 + 2 * at] = 0;
            witness[2 + 2 * other] = 0;
            out.push(witness_request(&problem, witness));
        }
    }
}

/// The inputs of a run at all limits, all on but for input 1 at one position, if any. The latches are all on from
/// position 1 on, so that a loop from position 0 stays open.
fn bytes(first: u8, off: Option<usize>) -> Vec<u8> {
    let (inputs, latches, positions) = (MOST[0] as usize, MOST[1] as usize, MOST[4] as usize + 1);
    let mut bytes = vec![first];
    bytes.extend((0..latches).map(|latch| latch as u8 % 2));
    bytes.resize(1 + latches + inputs * positions, 1);
    if let Some(position) = off {
        bytes[1 + latches + inputs * position] = 0;
    }
    bytes
}

/// Sixteen constraints at all limits, of which one, at the first, a middle or the last place, asks for input 1.
fn at_all_limits(out: &mut Vec<Request>) {
    let mut shown = all_limits();
    let width = shown[0] + shown[1] + shown[2];
    let atom = shown.len() - 3 * shown[3] as usize + 1;
    for formula in [2 * width + 1, 2 * width] {
        shown[atom] = formula;
        for place in [0, 7, MOST_CONSTRAINTS - 1] {
            let mut constraints = [2 * width + 1; MOST_CONSTRAINTS];
            constraints[place] = 2;
            let problem = with(&shown, &constraints);
            assert!(check(VERSION, &problem).is_ok(), "made well formed");
            for first in [0, 1, 2, 32] {
                for off in [None, Some(0), Some(16), Some(31)] {
                    out.push(witness_request(&problem, bytes(first, off)));
                }
            }
        }
    }
}

pub fn requests(out: &mut Vec<Request>) {
    each_position(out);
    at_all_limits(out);
}
