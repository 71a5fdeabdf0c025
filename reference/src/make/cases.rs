//! Requests of kind `cases`: the cases T and H of document 01, its thirteen counts, and words with two faults in one part.

use super::bare::step_count;
use super::find::every_room;
use super::problems::calls;
use super::witnesses::every_witness;
use crate::cnf;
use crate::problem::check;
use crate::random::Random;
use crate::requests::Request;

pub const T: [u32; 10] = [0, 1, 0, 1, 0, 3, 0, 0, 2, 0];

/// H, the two-bit counter, with these node triples.
pub fn counter(k: u32, nodes: &[u32]) -> Vec<u32> {
    let mut words = vec![0, 2, 4, nodes.len() as u32 / 3, k];
    words.extend([3, 0, 11, 0, 2, 5, 3, 4, 7, 9, 2, 4]);
    words.extend(nodes);
    words
}

const F_12: &[u32] = &[0, 12, 0, 4, 0, 0];
const G_F_12: &[u32] = &[0, 12, 0, 4, 0, 0, 5, 1, 0];
const G_13: &[u32] = &[0, 13, 0, 5, 0, 0];
const X_2: &[u32] = &[0, 2, 0, 3, 0, 0];
const R_12_1: &[u32] = &[0, 12, 0, 0, 1, 0, 7, 0, 1];

/// Of H: nodes, k and the number of witnesses.
const COUNTER_COUNTS: [(&[u32], u32, usize); 10] = [
    (F_12, 2, 0),
    (F_12, 3, 2),
    (F_12, 7, 3),
    (G_F_12, 2, 0),
    (G_F_12, 3, 1),
    (G_13, 3, 0),
    (X_2, 0, 0),
    (X_2, 1, 1),
    (R_12_1, 2, 0),
    (R_12_1, 3, 2),
];

/// The other three: words and the number of witnesses.
const OTHER_COUNTS: [(&[u32], usize); 3] = [
    (&[1, 0, 0, 1, 0, 0, 2, 0], 2),
    (&[1, 0, 0, 2, 0, 0, 2, 0, 5, 0, 0], 1),
    (&[0, 1, 0, 2, 0, 2, 2, 0, 2, 0, 5, 0, 0], 1),
];

/// The thirteen problems with the number of their witnesses.
pub fn counts() -> Vec<(Vec<u32>, usize)> {
    let of_counter = COUNTER_COUNTS.iter().map(|&(nodes, k, count)| (counter(k, nodes), count));
    let others = OTHER_COUNTS.iter().map(|&(words, count)| (words.to_vec(), count));
    of_counter.chain(others).collect()
}

/// Two wrong words in one latch, in one gate, in one node: the first of the two decides.
const TWO_FAULTS: [&[u32]; 3] =
    [&[0, 1, 0, 1, 0, 9, 9, 0, 2, 0], &[1, 0, 1, 1, 0, 9, 9, 0, 2, 0], &[1, 0, 0, 1, 0, 0, 9, 9]];

/// T's refutations, the accepted and the refused, those with steps that are trivially true too, as problem and as bare CNF.
fn case_t(out: &mut Vec<Request>) {
    let problem = check(1, &T).expect("T is well formed");
    let cnf = cnf::words(&problem);
    let refutations: [&[i32]; 10] = [
        &[0, 2, 12, 5, 0],
        &[0, 12, 5, 0],
        &[],
        &[-2, 0, 2, 0],
        &[1, -1, 0, 0, 0, 2, 12, 5, 0],
        &[1, -1, 0, 1, 0],
        &[1, -1, 0, 0],
        &[1, -1, 0, 0, 0, 13, 2, 12, 5, 0],
        &[1, -1, 0, 0, -4, 0, 2, 5, 0, 0, 12, 14, 0],
        &[1, -1, 0, 0, -4, 0, 2, 5, 0, 0, 12, 13, 0],
    ];
    for refutation in refutations {
        for extra in [0, 3] {
            let (by_numbers, by_clauses) = (7 + extra, 12 + step_count(refutation) as u32 + extra);
            out.push(Request::Refutation {
                version: 1,
                problem: T.to_vec(),
                refutation: refutation.to_vec(),
                room: cnf.len() as u32 + extra,
                by_numbers,
                by_clauses,
            });
            out.push(Request::Bare {
                variables: 6,
                cnf: cnf.clone(),
                refutation: refutation.to_vec(),
                by_numbers,
                by_clauses,
            });
        }
    }
}

pub fn requests(random: &mut Random, count: usize) -> Vec<Request> {
    let mut out = Vec::new();
    for _ in 0..count {
        case_t(&mut out);
        let mut problems: Vec<Vec<u32>> = counts().into_iter().map(|case| case.0).collect();
        problems.push(T.to_vec());
        for words in TWO_FAULTS {
            calls(random, 1, 1, words, &mut out);
        }
        for words in problems {
            every_witness(random, 1, &words, &mut out);
            calls(random, 1, 1, &words, &mut out);
            calls(random, 2, 1, &words, &mut out);
            every_room(1, &words, &mut out);
        }
        for words in TWO_FAULTS {
            every_room(1, words, &mut out);
        }
    }
    out
}
