//! Streams whose last request is too long, of no known call, or cut short.

use super::circuits::{read, write};
use super::T;
use crate::random::Random;
use crate::requests::*;

/// A count, its items or none, for a request made by hand.
struct Part {
    count: u32,
    bytes: usize,
}

fn whole(count: u32, item: usize) -> Part {
    Part { count, bytes: count as usize * item }
}

fn asked(count: u32) -> Part {
    Part { count, bytes: 0 }
}

fn by_hand(call: u8, parts: &[Part]) -> Vec<u8> {
    let mut bytes = vec![call, 0, 0, 0, 1];
    for part in parts {
        bytes.extend(part.count.to_be_bytes());
        bytes.resize(bytes.len() + part.bytes, 0);
    }
    bytes
}

/// Each buffer of each call one past its capacity, with and without the items that follow.
fn too_long() -> Vec<Vec<u8>> {
    let mut all = Vec::new();
    for past in [1, 1 << 20, 1 << 30, u32::MAX - 300_000] {
        for call in [1, 2, 3, 5, 6] {
            all.push(by_hand(call, &[asked(PROBLEM_WORDS + past)]));
        }
        all.push(by_hand(2, &[whole(8, 4), asked(CNF_WORDS + past)]));
        all.push(by_hand(3, &[whole(8, 4), asked(WITNESS_BYTES + past)]));
        all.push(by_hand(6, &[whole(8, 4), asked(WITNESS_BYTES + past)]));
        all.push(by_hand(4, &[asked(CNF_WORDS + past)]));
        all.push(by_hand(4, &[whole(8, 4), asked(REFUTATION_WORDS + past)]));
        all.push(by_hand(4, &[whole(8, 4), whole(4, 4), asked(AREA_WORDS + past), asked(9)]));
        all.push(by_hand(4, &[whole(8, 4), whole(4, 4), asked(9), asked(AREA_WORDS + past)]));
        all.push(by_hand(5, &[whole(8, 4), asked(REFUTATION_WORDS + past)]));
        let areas = [(CNF_WORDS + past, 1, 1), (9, AREA_WORDS + past, 1), (9, 9, AREA_WORDS + past)];
        for (room, first, second) in areas {
            let parts = [whole(8, 4), whole(4, 4), asked(room), asked(first), asked(second)];
            all.push(by_hand(5, &parts));
        }
        all.push(by_hand(7, &[asked(TEXT_BYTES + past)]));
        all.push(by_hand(7, &[whole(8, 1), asked(CIRCUIT_WORDS + past)]));
        all.push(by_hand(8, &[asked(CIRCUIT_WORDS + past)]));
        all.push(by_hand(8, &[whole(8, 4), asked(TEXT_BYTES + past)]));
    }
    all.push(by_hand(1, &[whole(PROBLEM_WORDS + 1, 4)]));
    all.push(by_hand(4, &[whole(CNF_WORDS + 1, 4), whole(1, 4), asked(2), asked(2)]));
    all.push(by_hand(7, &[whole(TEXT_BYTES + 1, 1), asked(2)]));
    all.push(by_hand(8, &[whole(CIRCUIT_WORDS + 1, 4), asked(2)]));
    all
}

/// Requests of calls that there are not, told as cut short: all but their first byte is in order.
fn unknown() -> Vec<Vec<u8>> {
    [0, 9, 10, 128, 255].map(|call| by_hand(call, &[whole(8, 4), asked(9), asked(9), asked(9)])).to_vec()
}

/// One whole request of each call.
fn whole_requests() -> Vec<Vec<u8>> {
    let (version, problem) = (1, T.to_vec());
    let refutation = vec![0, 2, 12, 5, 0];
    let requests = [
        Request::Check { version, problem: problem.clone() },
        Request::Cnf { version, problem: problem.clone(), room: 40 },
        Request::Witness { version, problem: problem.clone(), witness: vec![0, 0] },
        Request::Bare {
            variables: 1,
            cnf: vec![1, 0, -1, 0],
            refutation: vec![0, 1, 2, 0],
            by_numbers: 2,
            by_clauses: 3,
        },
        Request::Refutation {
            version,
            problem: problem.clone(),
            refutation,
            room: 40,
            by_numbers: 7,
            by_clauses: 13,
        },
        Request::Find { version, problem, room: 4 },
        read(b"aag 1 0 1 1 0\n2 3\n2\n", 8),
        write(&[0, 1, 0, 1, 3, 0, 2], 24),
    ];
    requests.iter().map(Request::bytes).collect()
}

/// Stream `number`: some whole requests, then a broken one, then bytes that must not be read.
pub fn stream(random: &mut Random, number: usize) -> Vec<u8> {
    let whole = whole_requests();
    let mut bytes = Vec::new();
    for _ in 0..random.below(4) {
        bytes.extend(&whole[random.below(whole.len())]);
    }
    let wrong = [too_long(), unknown()].concat();
    if number < wrong.len() {
        bytes.extend(&wrong[number]);
        bytes.extend(&whole[0]);
        return bytes;
    }
    // The later numbers walk through every place where a request can be cut.
    let mut place = number - wrong.len();
    for request in &whole {
        if place < request.len() {
            bytes.extend(&request[..place]);
            return bytes;
        }
        place -= request.len();
    }
    bytes
}

/// How many streams there are.
pub fn streams() -> usize {
    too_long().len() + unknown().len() + whole_requests().iter().map(Vec::len).sum::<usize>() + 1
}
