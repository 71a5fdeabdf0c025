//! Requests of kind `trivial`: refutations with steps that are trivially true, a variable of their clause having both signs.

use super::bare::{self, cnf_words};
use super::damage::{damaged, put, Of};
use super::refute;
use crate::problem::{refused, yes, Answer};
use crate::random::Random;
use crate::requests::Request;
use crate::splitting::{words, Step};

/// A clause with both signs of a variable, at any two places, and at times other literals or these again.
fn clause(random: &mut Random, of: Of) -> Vec<i32> {
    let literal = of.literal(random);
    let mut clause = vec![literal];
    put(random, &mut clause, -literal);
    for _ in 0..random.pick(&[0, 0, 0, 1, 2, 4]) {
        let more = if random.one_in(3) { random.pick(&[literal, -literal]) } else { of.literal(random) };
        put(random, &mut clause, more);
    }
    clause
}

fn step(random: &mut Random, of: Of) -> Step {
    Step { clause: clause(random, of), hints: vec![] }
}

/// Puts a step before number `at`. Each hint after it still names the clause that it named.
fn insert(of: Of, steps: &mut Vec<Step>, at: usize, step: Step) {
    let own = (of.clauses + at + 1) as i32;
    for hint in steps[at..].iter_mut().flat_map(|later| later.hints.iter_mut()) {
        *hint += i32::from(*hint >= own);
    }
    steps.insert(at, step);
}

/// One to three of them, at any places before the last step.
fn among(random: &mut Random, of: Of, good: &[Step]) -> Vec<Step> {
    let mut steps = good.to_vec();
    for _ in 0..random.between(1, 3) {
        let at = random.below(steps.len());
        insert(of, &mut steps, at, step(random, of));
    }
    steps
}

/// An accepted refutation with such steps put into it, each with the answer that document 02 lays down for it.
pub fn variants(random: &mut Random, of: Of, good: &[Step]) -> Vec<(Vec<Step>, Answer)> {
    let mut made = Vec::new();

    // In front of the first step, before the last one, and anywhere: accepted.
    for at in [0, good.len() - 1] {
        let mut steps = good.to_vec();
        insert(of, &mut steps, at, step(random, of));
        made.push((steps, yes(0)));
    }
    made.push((among(random, of, good), yes(0)));

    // As the last step, and with nothing else: the last clause is not empty.
    let mut steps = among(random, of, good);
    steps.push(step(random, of));
    let count = steps.len();
    made.push((steps, refused(14, count)));
    let count = random.between(1, 3);
    made.push(((0..count).map(|_| step(random, of)).collect(), refused(14, count)));

    // With a hint or a few.
    let mut steps = good.to_vec();
    let at = random.below(good.len());
    let hints = (0..random.between(1, 3)).map(|_| random.between(1, of.clauses + at) as i32).collect();
    insert(of, &mut steps, at, Step { clause: clause(random, of), hints });
    made.push((steps, refused(13, at)));

    // Named by a hint of a later step, wherever the hint stands.
    let mut steps = good.to_vec();
    let at = random.below(good.len());
    insert(of, &mut steps, at, step(random, of));
    let later = random.between(at + 1, good.len());
    put(random, &mut steps[later].hints, (of.clauses + at + 1) as i32);
    made.push((steps, refused(13, later)));

    // A literal twice, with one sign only, is not trivially true.
    let mut steps = good.to_vec();
    let (at, literal) = (random.below(good.len()), of.literal(random));
    insert(of, &mut steps, at, Step { clause: vec![literal, literal], hints: vec![] });
    made.push((steps, refused(13, at)));
    made
}

/// The words of each variant; then of two in which later hints were not renumbered, and of three that are damaged.
fn refutations(random: &mut Random, of: Of, good: &[Step]) -> Vec<Vec<i32>> {
    let mut made: Vec<Vec<i32>> = variants(random, of, good).iter().map(|made| words(&made.0)).collect();
    for _ in 0..2 {
        let mut steps = good.to_vec();
        let at = random.below(good.len());
        steps.insert(at, step(random, of));
        made.push(words(&steps));
    }
    for _ in 0..3 {
        let steps = among(random, of, good);
        made.push(damaged(random, of, &steps));
    }
    made
}

pub fn requests(random: &mut Random, count: usize) -> Vec<Request> {
    let mut out = Vec::new();
    for number in 0..count {
        let (variables, clauses, steps) = bare::refuted(random);
        let of = Of { variables: variables as i32, clauses: clauses.len() };
        let cnf = cnf_words(&clauses);
        for refutation in refutations(random, of, &steps) {
            out.push(bare::request(random, variables as u32, cnf.clone(), refutation));
        }
        if number % 5 == 0 {
            let subject = refute::subject(random);
            for refutation in refutations(random, subject.of(), &subject.steps) {
                let whole = !random.one_in(4);
                out.push(refute::request(random, &subject, refutation, whole));
            }
        }
    }
    out
}
