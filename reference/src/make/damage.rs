//! Damage to refutations: to their steps, and to their bare words.

use crate::random::Random;
use crate::splitting::{words, Step};

/// What a refutation is of.
#[derive(Clone, Copy)]
pub struct Of {
    pub variables: i32,
    pub clauses: usize,
}

impl Of {
    pub fn literal(self, random: &mut Random) -> i32 {
        let variable = random.between(1, self.variables.max(1) as usize) as i32;
        if random.one_in(2) {
            variable
        } else {
            -variable
        }
    }

    /// A number that a literal or a hint of step `step` must not be, or barely may be.
    fn odd_number(self, random: &mut Random, step: usize) -> i32 {
        let own = (self.clauses + step + 1) as i32;
        let v = self.variables;
        let numbers = [
            v,
            -v,
            v + 1,
            -v - 1,
            own,
            own + 1,
            own - 1,
            -1,
            1,
            i32::MIN,
            i32::MAX,
            i32::MIN + 1,
            0,
            65_536,
            -65_536,
            65_535,
            1 << 16 | 1,
        ];
        random.pick(&numbers)
    }
}

pub fn put(random: &mut Random, list: &mut Vec<i32>, word: i32) {
    let place = random.below(list.len() + 1);
    list.insert(place, word);
}

/// Changes the hints of one step.
fn hints(random: &mut Random, of: Of, number: usize, hints: &mut Vec<i32>) {
    let earlier = random.between(1, (of.clauses + number).max(1)) as i32;
    let odd = of.odd_number(random, number);
    let at = if hints.is_empty() { 0 } else { random.below(hints.len()) };
    match random.below(9) {
        0 if !hints.is_empty() => hints[at] = earlier,
        1 if !hints.is_empty() => {
            hints.remove(at);
        }
        2 => hints.push(earlier),
        3 if !hints.is_empty() => put(random, hints, hints[at]),
        4 if !hints.is_empty() => hints[at] = hints[at].wrapping_neg(),
        5 if hints.len() > 1 => hints.swap(at, 0),
        6 => put(random, hints, odd),
        7 if !hints.is_empty() => {
            hints.pop();
        }
        _ => put(random, hints, earlier),
    }
}

/// Changes the clause of one step.
fn clause(random: &mut Random, of: Of, number: usize, clause: &mut Vec<i32>) {
    let literal = of.literal(random);
    let odd = of.odd_number(random, number);
    let at = if clause.is_empty() { 0 } else { random.below(clause.len()) };
    match random.below(7) {
        0 if !clause.is_empty() => put(random, clause, clause[at]),
        1 if !clause.is_empty() => put(random, clause, clause[at].wrapping_neg()),
        2 if !clause.is_empty() => clause[at] = clause[at].wrapping_neg(),
        3 if !clause.is_empty() => {
            clause.remove(at);
        }
        4 => put(random, clause, odd),
        5 => {
            put(random, clause, literal);
            put(random, clause, -literal);
        }
        _ => put(random, clause, literal),
    }
}

/// Changes the list of steps.
fn steps(random: &mut Random, of: Of, steps: &mut Vec<Step>) {
    let at = random.below(steps.len());
    match random.below(6) {
        0 => {
            steps.pop();
        }
        1 => {
            steps.remove(at);
        }
        2 => steps.insert(at, steps[at].clone()),
        3 => steps.swap(at, 0),
        4 => steps.push(Step { clause: vec![], hints: vec![(of.clauses + steps.len()) as i32] }),
        _ => {
            let unit = vec![of.literal(random)];
            steps.push(Step { clause: unit, hints: vec![(of.clauses + steps.len()) as i32] });
        }
    }
}

/// Changes single words, or where the words end.
fn bare_words(random: &mut Random, of: Of, words: &mut Vec<i32>) {
    if words.is_empty() {
        words.push(of.literal(random));
        return;
    }
    let at = random.below(words.len());
    match random.below(5) {
        0 => words.truncate(at),
        1 => words[at] = 0,
        2 => words[at] = of.odd_number(random, 0),
        3 => {
            words.remove(at);
        }
        _ => words.push(random.pick(&[0, 1, -1])),
    }
}

/// The words of a refutation that is damaged in one place or a few.
pub fn damaged(random: &mut Random, of: Of, whole: &[Step]) -> Vec<i32> {
    let mut damaged = whole.to_vec();
    for _ in 0..random.between(1, 2) {
        if damaged.is_empty() {
            break;
        }
        let number = random.below(damaged.len());
        match random.below(5) {
            0 | 1 => hints(random, of, number, &mut damaged[number].hints),
            2 => clause(random, of, number, &mut damaged[number].clause),
            3 => steps(random, of, &mut damaged),
            _ => {}
        }
    }
    let mut words = words(&damaged);
    if random.one_in(4) {
        bare_words(random, of, &mut words);
    }
    words
}
