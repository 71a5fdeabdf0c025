//! Requests of kind `refute`: call 5 with refutations of problems that have no witness.

use super::bare::{size, step_count};
use super::damage::{damaged, Of};
use super::shapes::small;
use crate::problem::check;
use crate::random::Random;
use crate::requests::Request;
use crate::splitting::{refute, words, Step};
use crate::{cnf, witness};

pub struct Subject {
    version: u32,
    pub problem: Vec<u32>,
    variables: usize,
    clauses: usize,
    room: usize,
    pub steps: Vec<Step>,
}

impl Subject {
    pub fn of(&self) -> Of {
        Of { variables: self.variables as i32, clauses: self.clauses }
    }
}

/// A small problem without a witness and a refutation of its CNF.
pub fn subject(random: &mut Random) -> Subject {
    refuted(random, 1, |random| small(random, 6))
}

/// The first of these problems of a version that has no witness, and a refutation of its CNF.
pub fn refuted(random: &mut Random, version: u32, make: impl Fn(&mut Random) -> Vec<u32>) -> Subject {
    loop {
        let problem = make(random);
        let read = check(version, &problem).expect("made well formed");
        if !witness::all(&read).is_empty() {
            continue;
        }
        let cnf = cnf::words(&read);
        let clauses = cnf::clauses(&cnf);
        if let Some(steps) = refute(random, &clauses, 200) {
            let (variables, clauses) = (cnf::variables(&read), clauses.len());
            return Subject { version, problem, variables, clauses, room: cnf.len(), steps };
        }
    }
}

/// Call 5 on it; `whole` with buffers that are just long enough.
pub fn request(random: &mut Random, subject: &Subject, refutation: Vec<i32>, whole: bool) -> Request {
    let mut sized = |needed: usize| if whole { needed as u32 } else { size(random, needed) };
    Request::Refutation {
        version: subject.version,
        problem: subject.problem.clone(),
        room: sized(subject.room),
        by_numbers: sized(subject.variables + 1),
        by_clauses: sized(subject.clauses + step_count(&refutation)),
        refutation,
    }
}

pub fn requests(random: &mut Random, count: usize) -> Vec<Request> {
    let mut out = Vec::new();
    for _ in 0..count {
        let subject = subject(random);
        let of = subject.of();
        let good = words(&subject.steps);
        out.push(request(random, &subject, good.clone(), true));
        out.push(request(random, &subject, good, false));
        for _ in 0..8 {
            let refutation = damaged(random, of, &subject.steps);
            out.push(request(random, &subject, refutation, false));
        }
    }
    out
}
