//! Requests of kind `cnf`: bare CNFs, their refutations, good and damaged.

use super::damage::{damaged, Of};
use crate::models;
use crate::random::Random;
use crate::requests::Request;
use crate::splitting::{refute, words, Step};

type Clauses = Vec<Vec<i32>>;

pub fn cnf_words(clauses: &[Vec<i32>]) -> Vec<i32> {
    clauses.iter().flat_map(|clause| clause.iter().copied().chain([0])).collect()
}

fn clause(random: &mut Random, variables: usize) -> Vec<i32> {
    if variables == 0 || random.one_in(40) {
        return vec![];
    }
    let length = random.pick(&[1, 2, 2, 2, 3, 3, 3, 4]);
    let literal = |random: &mut Random| {
        let variable = random.between(1, variables) as i32;
        random.pick(&[variable, -variable])
    };
    (0..length).map(|_| literal(random)).collect()
}

/// Clauses over at most six variables, more and more of them until no model is left.
pub fn unsatisfiable(random: &mut Random) -> (usize, Vec<Vec<i32>>) {
    let variables = random.pick(&[0, 1, 1, 2, 2, 3, 3, 4, 4, 5, 6]);
    let mut clauses = Clauses::new();
    loop {
        for _ in 0..=variables {
            clauses.push(clause(random, variables));
        }
        let parts: Vec<&[i32]> = clauses.iter().map(Vec::as_slice).collect();
        if models::all_by_trying(variables, &parts).is_empty() {
            return (variables, clauses);
        }
    }
}

/// A CNF that is refuted: V, which is at least 1, its clauses, and a refutation of moderate length.
pub fn refuted(random: &mut Random) -> (usize, Vec<Vec<i32>>, Vec<Step>) {
    loop {
        let (least, mut clauses) = unsatisfiable(random);
        if least == 0 {
            continue;
        }
        let variables = spread(random, least, &mut clauses);
        let parts: Vec<&[i32]> = clauses.iter().map(Vec::as_slice).collect();
        if let Some(steps) = refute(random, &parts, 60) {
            return (variables, clauses, steps);
        }
    }
}

fn satisfiable_or_not(random: &mut Random) -> (usize, Clauses) {
    let variables = random.below(7);
    let count = random.below(7);
    (variables, (0..count).map(|_| clause(random, variables)).collect())
}

/// Renames the variables to others, in the same order, up to a larger V.
fn spread(random: &mut Random, variables: usize, clauses: &mut Clauses) -> usize {
    let most = match random.below(30) {
        0 => 65_535,
        1..=3 => random.between(100, 400),
        4..=12 => random.between(variables, variables + 20),
        _ => return variables,
    };
    let mut names: Vec<i32> = Vec::new();
    for left in (0..variables).rev() {
        let least = names.last().map_or(1, |&name| name as usize + 1);
        names.push(if left == 0 { most as i32 } else { random.between(least, most - left) as i32 });
    }
    for literal in clauses.iter_mut().flatten() {
        *literal = literal.signum() * names[literal.unsigned_abs() as usize - 1];
    }
    most
}

/// Steps that may or may not pass.
fn guesses(random: &mut Random, variables: usize, clauses: usize) -> Vec<Step> {
    let count = random.below(4);
    let step = |number: usize, random: &mut Random| Step {
        clause: clause(random, variables),
        hints: match clauses + number {
            0 => vec![],
            earlier => (0..random.below(4)).map(|_| random.between(1, earlier) as i32).collect(),
        },
    };
    (0..count).map(|number| step(number, random)).collect()
}

/// How many steps the words of a refutation hold if they are well formed.
pub fn step_count(words: &[i32]) -> usize {
    words.iter().filter(|&&word| word == 0).count() / 2
}

/// Mostly what is needed, at times one less, more, or none.
pub fn size(random: &mut Random, needed: usize) -> u32 {
    let size = match random.below(12) {
        0 => needed.saturating_sub(1),
        1 => needed + random.between(1, 5),
        2 if random.one_in(4) => 0,
        _ => needed,
    };
    size.min(65_536) as u32
}

pub fn request(random: &mut Random, variables: u32, cnf: Vec<i32>, refutation: Vec<i32>) -> Request {
    let clauses = cnf.iter().filter(|&&word| word == 0).count();
    // Of the long areas most are too short on purpose, to keep the answers short.
    let by_numbers = match variables {
        0..=1_000 => size(random, variables as usize + 1),
        65_535 if random.one_in(12) => size(random, 65_536),
        _ => random.below(9) as u32,
    };
    let by_clauses = size(random, clauses + step_count(&refutation));
    Request::Bare { variables, cnf, refutation, by_numbers, by_clauses }
}

/// Changes V or a word of the CNF.
fn damage_cnf(random: &mut Random, variables: &mut u32, cnf: &mut Vec<i32>) {
    let v = (*variables).min(70_000) as i32;
    let at = if cnf.is_empty() { 0 } else { random.below(cnf.len()) };
    match random.below(8) {
        0 if *variables > 0 => *variables -= 1,
        1 => *variables = random.pick(&[0, 65_535, 65_536, 65_537, 1 << 31, u32::MAX]),
        2 if !cnf.is_empty() => cnf[at] = random.pick(&[v + 1, -v - 1, v, -v]),
        3 if !cnf.is_empty() => cnf[at] = random.pick(&[i32::MIN, i32::MAX, i32::MIN + 1, 65_536, -65_536]),
        4 => cnf.truncate(at),
        5 => {
            cnf.pop();
        }
        6 => cnf.insert(at, 0),
        _ => cnf.push(random.pick(&[v, -v, v + 1, 0, 1])),
    }
}

/// All requests about one CNF.
fn subject(random: &mut Random, out: &mut Vec<Request>) {
    let (least, mut clauses) =
        if random.one_in(6) { satisfiable_or_not(random) } else { unsatisfiable(random) };
    let variables = spread(random, least, &mut clauses);
    let parts: Vec<&[i32]> = clauses.iter().map(Vec::as_slice).collect();
    let steps = match refute(random, &parts, 60) {
        Some(steps) => steps,
        None => guesses(random, variables, clauses.len()),
    };
    let (v, cnf) = (variables as u32, cnf_words(&clauses));
    let of = Of { variables: variables as i32, clauses: clauses.len() };
    let good = words(&steps);
    out.push(request(random, v, cnf.clone(), good.clone()));
    for _ in 0..8 {
        let refutation = damaged(random, of, &steps);
        out.push(request(random, v, cnf.clone(), refutation));
    }
    let guessed = words(&guesses(random, variables, clauses.len()));
    out.push(request(random, v, cnf.clone(), guessed));
    for _ in 0..2 {
        let (mut v, mut cnf) = (v, cnf.clone());
        damage_cnf(random, &mut v, &mut cnf);
        if random.one_in(3) {
            damage_cnf(random, &mut v, &mut cnf);
        }
        let refutation = if random.one_in(3) { damaged(random, of, &steps) } else { good.clone() };
        out.push(request(random, v, cnf, refutation));
    }
    if random.one_in(40) && variables < 1_000 {
        for length in 0..good.len() {
            out.push(request(random, v, cnf.clone(), good[..length].to_vec()));
        }
        for length in 0..cnf.len() {
            out.push(request(random, v, cnf[..length].to_vec(), good.clone()));
        }
    }
}

/// The corners that a random choice may miss.
fn corners(out: &mut Vec<Request>) {
    let refutations: [&[i32]; 9] = [
        &[],
        &[0],
        &[0, 0],
        &[0, 1, 0],
        &[0, 2, 0],
        &[1, 0, 1, 0],
        &[1, -1, 0, 0],
        &[-1, 1, 0, 1, 0],
        &[1, 1, -1, 0, 0, 0, 1, 0],
    ];
    let cnfs: [&[i32]; 6] = [&[], &[0], &[0, 0], &[1], &[1, 0, -1, 0], &[-1, -1, 0, 1, 1, 0]];
    let sizes = [(0, 0), (1, 1), (2, 2), (2, 3), (65_536, 3), (66_000, 0)];
    for variables in [0, 1, 65_535, 65_536, u32::MAX] {
        for cnf in cnfs {
            for refutation in refutations {
                for (by_numbers, by_clauses) in sizes {
                    if by_numbers > 2 && (variables != 65_535 || cnf.len() != 2) {
                        continue;
                    }
                    let (cnf, refutation) = (cnf.to_vec(), refutation.to_vec());
                    out.push(Request::Bare { variables, cnf, refutation, by_numbers, by_clauses });
                }
            }
        }
    }
}

pub fn requests(random: &mut Random, count: usize) -> Vec<Request> {
    let mut out = Vec::new();
    corners(&mut out);
    for _ in 0..count {
        subject(random, &mut out);
    }
    out
}
