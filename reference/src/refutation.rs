//! Refutations of any CNF: answers 16, 11, 12, 13, 14. Nothing here knows of circuits.

use crate::problem::{refused, yes, Answer};
use std::collections::{HashMap, HashSet};

pub const MOST_VARIABLES: u32 = 65_535;

struct Step<'a> {
    clause: &'a [i32],
    hints: &'a [i32],
}

fn over(literal: i32, variables: usize) -> bool {
    // unsigned_abs is exact for the least i32 too.
    literal.unsigned_abs() as usize > variables
}

/// The clauses of a bare CNF, or answer 16 with its word or length.
fn read_cnf(variables: usize, words: &[i32]) -> Result<Vec<&[i32]>, Answer> {
    let mut clauses = Vec::new();
    let mut from = 0;
    for (place, &word) in words.iter().enumerate() {
        if over(word, variables) {
            return Err(refused(16, place));
        }
        if word == 0 {
            clauses.push(&words[from..place]);
            from = place + 1;
        }
    }
    if from != words.len() {
        return Err(refused(16, words.len()));
    }
    Ok(clauses)
}

/// The steps, or answer 11. A step's own number is one more than all clauses and steps before it.
fn read_steps(variables: usize, clauses: usize, words: &[i32]) -> Result<Vec<Step<'_>>, Answer> {
    let mut steps: Vec<Step> = Vec::new();
    let mut from = 0;
    let mut clause: Option<&[i32]> = None;
    for (place, &word) in words.iter().enumerate() {
        let own = clauses + steps.len() + 1;
        match clause {
            None if over(word, variables) => return Err(refused(11, place)),
            None if word == 0 => {
                clause = Some(&words[from..place]);
                from = place + 1;
            }
            None => {}
            Some(clause_read) if word == 0 => {
                steps.push(Step { clause: clause_read, hints: &words[from..place] });
                clause = None;
                from = place + 1;
            }
            Some(_) if word < 1 || word as usize >= own => return Err(refused(11, place)),
            Some(_) => {}
        }
    }
    if clause.is_some() || from != words.len() {
        return Err(refused(11, words.len()));
    }
    Ok(steps)
}

/// The value of each variable that has one.
struct Values(HashMap<u32, bool>);

impl Values {
    fn of(&self, literal: i32) -> Option<bool> {
        self.0.get(&literal.unsigned_abs()).map(|&value| value == (literal > 0))
    }

    fn set_true(&mut self, literal: i32) {
        self.0.insert(literal.unsigned_abs(), literal > 0);
    }
}

/// Whether a step passes; `known` are all clauses before it. A clause with a variable in both signs is true anyway,
/// and then no hint may stand with it; any other follows by its hints.
fn passes(known: &[&[i32]], step: &Step) -> bool {
    let signs: HashSet<i32> = step.clause.iter().copied().collect();
    if signs.iter().any(|&literal| signs.contains(&-literal)) {
        return step.hints.is_empty();
    }
    let mut values = Values(HashMap::new());
    for &literal in step.clause {
        values.set_true(-literal);
    }
    for (n, &hint) in step.hints.iter().enumerate() {
        let clause = known[hint as usize - 1];
        let mut open = clause.iter().copied().filter(|&l| values.of(l) != Some(false));
        let Some(first) = open.next() else {
            return n + 1 == step.hints.len();
        };
        if values.of(first).is_some() || open.any(|l| l != first) {
            return false;
        }
        values.set_true(first);
    }
    false
}

fn judge_steps(clauses: &[&[i32]], steps: &[Step]) -> Answer {
    let mut known = clauses.to_vec();
    for (number, step) in steps.iter().enumerate() {
        if !passes(&known, step) {
            return refused(13, number);
        }
        known.push(step.clause);
    }
    match steps.last() {
        Some(step) if step.clause.is_empty() => yes(0),
        _ => refused(14, steps.len()),
    }
}

/// Judges a refutation of clauses known to be well formed; the needed work words end as 0.
pub fn judge(
    variables: usize,
    clauses: &[&[i32]],
    refutation: &[i32],
    by_numbers: &mut [u64],
    by_clauses: &mut [u64],
) -> Answer {
    let steps = match read_steps(variables, clauses.len(), refutation) {
        Ok(steps) => steps,
        Err(answer) => return answer,
    };
    let (numbers, all_clauses) = (variables + 1, clauses.len() + steps.len());
    if by_numbers.len() < numbers {
        return refused(12, numbers);
    }
    if by_clauses.len() < all_clauses {
        return refused(12, all_clauses);
    }
    by_numbers[..numbers].fill(0);
    by_clauses[..all_clauses].fill(0);
    judge_steps(clauses, &steps)
}

/// Judges a refutation of a bare CNF: 16 first.
pub fn judge_bare(
    variables: u32,
    cnf: &[i32],
    refutation: &[i32],
    by_numbers: &mut [u64],
    by_clauses: &mut [u64],
) -> Answer {
    if variables > MOST_VARIABLES {
        return refused(16, 0);
    }
    match read_cnf(variables as usize, cnf) {
        Ok(clauses) => judge(variables as usize, &clauses, refutation, by_numbers, by_clauses),
        Err(answer) => answer,
    }
}
