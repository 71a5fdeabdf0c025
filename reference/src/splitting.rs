//! Makes true refutations by splitting on variables, for the requests and the self check.

use crate::random::Random;
use std::collections::HashMap;

#[derive(Clone, Debug)]
pub struct Step {
    pub clause: Vec<i32>,
    pub hints: Vec<i32>,
}

/// The words of a refutation.
pub fn words(steps: &[Step]) -> Vec<i32> {
    let mut words = Vec::new();
    for step in steps {
        words.extend(&step.clause);
        words.push(0);
        words.extend(&step.hints);
        words.push(0);
    }
    words
}

struct Splitter<'a> {
    /// The CNF's clauses and then those of the steps.
    clauses: Vec<Vec<i32>>,
    steps: Vec<Step>,
    variables: Vec<i32>,
    random: &'a mut Random,
    most_steps: usize,
}

/// What following units leads to: the hint and literal of each, and the conflict's hint if any.
struct Trail {
    values: HashMap<i32, bool>,
    units: Vec<(i32, i32)>,
    conflict: Option<i32>,
}

impl Trail {
    fn value(&self, literal: i32) -> Option<bool> {
        self.values.get(&literal.abs()).map(|&value| value == (literal > 0))
    }

    fn set(&mut self, literal: i32) {
        self.values.insert(literal.abs(), literal > 0);
    }
}

impl Splitter<'_> {
    /// Sets the assumed literals true and follows units, from a random clause on.
    fn follow(&mut self, assumed: &[i32]) -> Trail {
        let mut trail = Trail { values: HashMap::new(), units: Vec::new(), conflict: None };
        for &literal in assumed {
            trail.set(literal);
        }
        let (count, start) = (self.clauses.len(), self.random.below(self.clauses.len()));
        let mut quiet = 0;
        let mut at = start;
        while quiet < count {
            let hint = at as i32 + 1;
            let clause = &self.clauses[at];
            let mut open = clause.iter().copied().filter(|&l| trail.value(l) != Some(false));
            let Some(first) = open.next() else {
                trail.conflict = Some(hint);
                return trail;
            };
            if trail.value(first).is_none() && open.all(|l| l == first) {
                trail.set(first);
                trail.units.push((hint, first));
                quiet = 0;
            }
            quiet += 1;
            at = (at + 1) % count;
        }
        trail
    }

    /// The hints that the conflict needs, and the assumed literals that they rest on.
    fn needed(&self, trail: &Trail, conflict: i32) -> (Vec<i32>, Vec<i32>) {
        let mut hints = vec![conflict];
        let mut wanted: Vec<i32> = self.clauses[conflict as usize - 1].iter().map(|&l| -l).collect();
        for &(hint, literal) in trail.units.iter().rev() {
            if !wanted.contains(&literal) {
                continue;
            }
            wanted.retain(|&l| l != literal);
            hints.push(hint);
            let clause = &self.clauses[hint as usize - 1];
            wanted.extend(clause.iter().filter(|&&l| l != literal).map(|&l| -l));
        }
        hints.reverse();
        (hints, wanted)
    }

    /// Adds the step that says that the assumed literals are not all true.
    fn emit(&mut self, assumed: &[i32], trail: &Trail, conflict: i32) {
        let (hints, rests_on) = self.needed(trail, conflict);
        let mut all_hints: Vec<i32> = trail.units.iter().map(|unit| unit.0).collect();
        all_hints.push(conflict);
        let shorter = assumed.iter().filter(|l| rests_on.contains(l)).map(|&l| -l);
        let step = match self.random.below(3) {
            0 if all_hints.len() < 40 => {
                Step { clause: assumed.iter().map(|&l| -l).collect(), hints: all_hints }
            }
            1 => Step { clause: assumed.iter().map(|&l| -l).collect(), hints },
            _ => Step { clause: shorter.collect(), hints },
        };
        self.clauses.push(step.clause.clone());
        self.steps.push(step);
    }

    /// False if the clauses can be satisfied under the assumed literals, or the steps get too many.
    fn split(&mut self, assumed: &mut Vec<i32>) -> bool {
        let trail = self.follow(assumed);
        if let Some(conflict) = trail.conflict {
            self.emit(assumed, &trail, conflict);
            return true;
        }
        let free = |&v: &i32| !trail.values.contains_key(&v);
        let free: Vec<i32> = self.variables.iter().copied().filter(free).collect();
        if free.is_empty() || self.steps.len() >= self.most_steps {
            return false;
        }
        // Early variables first: in a problem's CNF they are the free ones.
        let variable = free[self.random.below(free.len().min(3))];
        for literal in [-variable, variable] {
            assumed.push(literal);
            let closed = self.split(assumed);
            assumed.pop();
            if !closed {
                return false;
            }
        }
        let trail = self.follow(assumed);
        let conflict = trail.conflict.expect("both halves are closed");
        self.emit(assumed, &trail, conflict);
        true
    }
}

/// A refutation of the clauses, if there is one of moderate length.
pub fn refute(random: &mut Random, clauses: &[&[i32]], most_steps: usize) -> Option<Vec<Step>> {
    if clauses.is_empty() {
        return None;
    }
    let mut variables: Vec<i32> = clauses.iter().copied().flatten().map(|l| l.abs()).collect();
    variables.sort();
    variables.dedup();
    let clauses = clauses.iter().map(|clause| clause.to_vec()).collect();
    let mut splitter = Splitter { clauses, steps: Vec::new(), variables, random, most_steps };
    if splitter.split(&mut Vec::new()) {
        Some(splitter.steps)
    } else {
        None
    }
}
