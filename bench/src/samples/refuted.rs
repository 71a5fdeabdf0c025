//! Refutations of a given number of steps: random clauses of three literals, refuted by the solver.

use super::solver::{refute, Step};
use crate::random::Random;

/// A CNF and a refutation of it, as words.
pub struct Refuted {
    pub variables: u32,
    pub cnf: Vec<i32>,
    pub refutation: Vec<i32>,
    pub clauses: usize,
    pub steps: usize,
}

/// Steps, and the variables and the seed of clauses whose refutation needs no more and learns no fewer.
const KNOWN: [(usize, usize, u64); 3] = [(1_000, 140, 15), (10_000, 225, 12), (100_000, 300, 1)];

/// Clauses for each variable: past some 4.3 a CNF like this has no model as a rule.
const DENSITY: usize = 5;

fn random_clause(random: &mut Random, variables: usize) -> Vec<i32> {
    let mut clause: Vec<i32> = vec![];
    while clause.len() < 3 {
        let v = random.between(1, variables) as i32;
        if clause.iter().all(|literal| literal.abs() != v) {
            clause.push(if random.one_in(2) { v } else { -v });
        }
    }
    clause
}

/// Which steps the last one rests on.
fn needed(clauses: usize, steps: &[Step]) -> Vec<bool> {
    let mut needed = vec![false; steps.len()];
    needed[steps.len() - 1] = true;
    for n in (0..steps.len()).rev() {
        if needed[n] {
            let learned = steps[n].hints.iter().filter(|&&hint| hint >= clauses);
            learned.for_each(|&hint| needed[hint - clauses] = true);
        }
    }
    needed
}

/// The words of so many steps: the latest that the last does not rest on are left out.
fn words(clauses: usize, steps: &[Step], wanted: usize) -> Vec<i32> {
    let needed = needed(clauses, steps);
    let least = needed.iter().filter(|&&needed| needed).count();
    assert!(least <= wanted && wanted <= steps.len(), "{least} to {} steps can be had", steps.len());
    let mut spare = wanted - least;
    let mut numbers: Vec<usize> = (1..=clauses).collect();
    let mut words = vec![];
    let mut next = clauses;
    for (step, &needed) in steps.iter().zip(&needed) {
        // What is left out has no number: nothing that stays names it.
        numbers.push(0);
        if !needed && spare == 0 {
            continue;
        }
        spare -= usize::from(!needed);
        next += 1;
        *numbers.last_mut().unwrap() = next;
        words.extend(&step.clause);
        words.push(0);
        words.extend(step.hints.iter().map(|&hint| numbers[hint] as i32));
        words.push(0);
    }
    words
}

fn refuted((steps, variables, seed): (usize, usize, u64)) -> Refuted {
    let mut random = Random::new(seed);
    let clauses: Vec<Vec<i32>> =
        (0..DENSITY * variables).map(|_| random_clause(&mut random, variables)).collect();
    let learned = refute(variables, &clauses).expect("these clauses have no model");
    let cnf = clauses.iter().flat_map(|clause| clause.iter().copied().chain([0])).collect();
    let refutation = words(clauses.len(), &learned, steps);
    Refuted { variables: variables as u32, cnf, refutation, clauses: clauses.len(), steps }
}

/// The same refutation with a step in front of each that is trivially true: a clause like the CNF's, and the negation of one of
/// its literals.
pub fn with_trivial(seed: u64, of: &Refuted) -> Refuted {
    let mut random = Random::new(seed);
    let clauses = of.clauses as i32;
    // Step n, from 1 on, is the last of n pairs after the clauses.
    let renumbered = |hint: i32| if hint <= clauses { hint } else { clauses + 2 * (hint - clauses) };
    let mut words = vec![];
    for step in of.refutation.split_inclusive(|&word| word == 0).collect::<Vec<_>>().chunks(2) {
        let clause = random_clause(&mut random, of.variables as usize);
        words.extend(&clause);
        words.extend([-clause[random.below(3)], 0, 0]);
        words.extend(step[0]);
        words.extend(step[1].iter().map(|&hint| renumbered(hint)));
    }
    Refuted { cnf: of.cnf.clone(), refutation: words, steps: 2 * of.steps, ..*of }
}

/// The words with one hint more, of an earlier clause or step, in any step.
pub fn hinted(random: &mut Random, of: &Refuted) -> Vec<i32> {
    let step = random.below(of.steps);
    let zeros = of.refutation.iter().enumerate().filter(|&(_, &word)| word == 0);
    let (place, _) = zeros.skip(2 * step).next().expect("each step's clause is ended");
    let mut words = of.refutation.clone();
    words.insert(place + 1, random.between(1, of.clauses + step) as i32);
    words
}

/// One refutation of each size.
pub fn all() -> impl Iterator<Item = Refuted> {
    KNOWN.into_iter().map(refuted)
}
