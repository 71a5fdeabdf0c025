//! Problems of version 2: constraints put into words of version 1, most of them chosen by a run that meets them.

use super::super::problems::run_bytes;
use crate::problem::{check, Problem};
use crate::random::Random;
use crate::witness::{literal, run, Run};

pub const VERSION: u32 = 2;

/// Words of version 1 with these constraints.
pub fn with(words: &[u32], constraints: &[u32]) -> Vec<u32> {
    let nodes_from = 5 + 2 * (words[1] + words[2]) as usize;
    let count = constraints.len() as u32;
    [&words[..5], &[count], &words[5..nodes_from], constraints, &words[nodes_from..]].concat()
}

/// Where the constraints of good words of version 2 begin.
pub fn constraints_from(words: &[u32]) -> usize {
    6 + 2 * (words[1] + words[2]) as usize
}

/// The same problem without its constraints, as words of version 1.
pub fn without(words: &[u32]) -> Vec<u32> {
    let from = constraints_from(words);
    let nodes_from = from + words[5] as usize;
    [&words[..5], &words[6..from], &words[nodes_from..]].concat()
}

/// The literals whose first false position on a run is this one; None: those that are true at all positions.
pub fn literals_false_first(problem: &Problem, run: &Run, position: Option<usize>) -> Vec<u32> {
    let first_false = |l: u32| run.iter().position(|values| !literal(values, l as usize));
    (0..2 * problem.width() as u32 + 2).filter(|&l| first_false(l) == position).collect()
}

/// A constant, a literal that is true all along a run, one that is not, or any.
fn constraint(random: &mut Random, problem: &Problem, run: &Run) -> u32 {
    let any = random.below(2 * problem.width() + 2) as u32;
    let position = match random.below(16) {
        0 => return 0,
        1 => return 1,
        2..=11 => None,
        12 | 13 => Some(random.below(problem.k + 1)),
        _ => return any,
    };
    match literals_false_first(problem, run, position) {
        found if found.is_empty() => any,
        found => random.pick(&found),
    }
}

/// So many constraints for words of version 1, at times one of them twice or with its negation.
pub fn constraints(random: &mut Random, words: &[u32], count: usize) -> Vec<u32> {
    let problem = check(1, words).expect("made well formed");
    let bytes = run_bytes(random, &problem);
    let run = run(&problem, &bytes);
    let mut made: Vec<u32> = (0..count).map(|_| constraint(random, &problem, &run)).collect();
    if count > 1 && random.one_in(8) {
        made[count - 1] = made[0] ^ u32::from(random.one_in(3));
    }
    made
}

/// Words of version 1 with 0 to 3 constraints.
pub fn constrained(random: &mut Random, words: &[u32]) -> Vec<u32> {
    let count = random.below(4);
    let constraints = constraints(random, words, count);
    with(words, &constraints)
}
