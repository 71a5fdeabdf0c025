//! Requests of kind `constraint-refute`: call 5 with refutations of problems of version 2 that have no witness.

use super::super::damage::damaged;
use super::super::refute::{refuted, request, Subject};
use super::super::shapes::{looping, small};
use super::shapes::{constrained, with, without, VERSION};
use crate::problem::check;
use crate::random::Random;
use crate::requests::Request;
use crate::splitting::words;
use crate::witness;

/// A small problem with constraints, without which it would have a witness.
fn shown_without(random: &mut Random) -> Vec<u32> {
    loop {
        let base = if random.one_in(2) { small(random, 6) } else { looping(random) };
        let words = constrained(random, &base);
        let problem = check(1, &base).expect("made well formed");
        if words[5] > 0 && !witness::all(&problem).is_empty() {
            return words;
        }
    }
}

/// A problem of version 2 without a witness and a refutation of its CNF; mostly one that rests on a constraint.
fn subject(random: &mut Random) -> Subject {
    if random.one_in(4) {
        return refuted(random, VERSION, |random| {
            let words = small(random, 6);
            constrained(random, &words)
        });
    }
    refuted(random, VERSION, shown_without)
}

/// A refutation put to the problem without constraints, as either version, and with one constraint more.
fn others(random: &mut Random, subject: &Subject, good: &[i32], out: &mut Vec<Request>) {
    let base = without(&subject.problem);
    let constraints = check(VERSION, &subject.problem).expect("made well formed").constraints;
    let more = [&constraints[..], &[1]].concat();
    for (version, problem) in [(1, base.clone()), (VERSION, with(&base, &[])), (VERSION, with(&base, &more))]
    {
        let mut other = request(random, subject, good.to_vec(), false);
        if let Request::Refutation { room, by_clauses, .. } = &mut other {
            // Room for the clauses of one constraint more.
            *room += 2 * (base[4] + 1);
            *by_clauses += base[4] + 1;
        }
        if let Some(asked) = other.problem_mut() {
            (*asked.0, *asked.1) = (version, problem);
        }
        out.push(other);
    }
}

pub fn requests(random: &mut Random, count: usize) -> Vec<Request> {
    let mut out = Vec::new();
    for number in 0..count {
        let subject = subject(random);
        let good = words(&subject.steps);
        out.push(request(random, &subject, good.clone(), true));
        out.push(request(random, &subject, good.clone(), false));
        for _ in 0..6 {
            let refutation = damaged(random, subject.of(), &subject.steps);
            out.push(request(random, &subject, refutation, false));
        }
        if number % 3 == 0 {
            others(random, &subject, &good, &mut out);
        }
    }
    out
}
