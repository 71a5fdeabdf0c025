//! Requests of kind `constraint-limits`: problems of version 2 at each limit and one past it, lengths one off, and
//! runs of 32 positions.

use super::super::find::every_room;
use super::super::limits::all_limits;
use super::super::shapes::{words, Head};
use super::problems::all_calls;
use super::shapes::{constraints, constraints_from, with, without, VERSION};
use super::{find_limits, long_runs};
use crate::cnf;
use crate::problem::{check, MOST};
use crate::random::Random;
use crate::requests::{Request, CNF_WORDS, PROBLEM_WORDS};

/// D at its limit.
pub const MOST_CONSTRAINTS: usize = MOST[5] as usize;

fn check_request(problem: Vec<u32>) -> Request {
    Request::Check { version: VERSION, problem }
}

/// Words of any sizes, past the limits too, with so many constraints.
fn sized(random: &mut Random, head: Head, count: usize) -> Vec<u32> {
    let any = 2 * (head[0] + head[1] + head[2]) + 2;
    let base = words(random, head);
    let constraints: Vec<u32> = (0..count).map(|_| random.below(any) as u32).collect();
    with(&base, &constraints)
}

/// Each of I, L, A, N, k, D at its limit and one past it, and N and D at 0; the lengths fit.
fn each_limit(random: &mut Random, out: &mut Vec<Request>) {
    let mut all = vec![([1, 1, 1, 0, 1], 2), ([1, 1, 1, 2, 1], 0), ([0, 0, 0, 1, 0], 0)];
    for past in [0, 1] {
        for place in 0..5 {
            let mut head: Head = [1, 1, 1, 2, 1];
            head[place] = MOST[place] as usize + past;
            all.push((head, 2));
        }
        for head in [[1, 1, 1, 2, 1], [0, 0, 0, 1, 0], [3, 2, 4, 5, 31]] {
            all.push((head, MOST_CONSTRAINTS + past));
        }
    }
    for (head, count) in all {
        let words = sized(random, head, count);
        all_calls(random, VERSION, &words, out);
        every_room(VERSION, &words, out);
    }
}

/// Two words of the header one past their limits, every two of them: the first decides.
fn two_sizes(random: &mut Random, out: &mut Vec<Request>) {
    let good = sized(random, [1, 1, 1, 2, 1], 3);
    for first in 0..6 {
        for second in first + 1..6 {
            let mut problem = good.clone();
            problem[first] = MOST[first] + 1;
            problem[second] = u32::MAX;
            out.push(check_request(problem));
        }
    }
}

/// Constraints just allowed, just not, and as large as a word can be, at the first, a middle and the last place.
fn literals(random: &mut Random, out: &mut Vec<Request>) {
    for head in [[0, 0, 0, 1, 0], [2, 1, 2, 3, 1], [64, 64, 1024, 64, 31]] {
        let good = sized(random, head, MOST_CONSTRAINTS);
        let (from, most) = (constraints_from(&good), 2 * (good[0] + good[1] + good[2]) + 1);
        for place in [from, from + 7, from + 15] {
            for value in [most - 1, most, most + 1, most + 2, u32::MAX] {
                let mut problem = good.clone();
                problem[place] = value;
                if head[4] > 1 {
                    out.push(check_request(problem));
                } else {
                    all_calls(random, VERSION, &problem, out);
                }
            }
        }
    }
}

/// Words with one too many, one too few, D one off, without their constraints, and every part of the header alone.
fn lengths(random: &mut Random, out: &mut Vec<Request>) {
    for count in [0, 1, 3, MOST_CONSTRAINTS] {
        let good = sized(random, [1, 2, 2, 2, 1], count);
        let base = without(&good);
        let mut wrong = vec![[&good[..], &[0]].concat(), good[..good.len() - 1].to_vec(), base];
        for d in [count.wrapping_sub(1), count + 1] {
            let mut problem = good.clone();
            problem[5] = d as u32;
            wrong.push(problem);
        }
        wrong.extend((0..=6).map(|length| good[..length].to_vec()));
        for problem in wrong {
            all_calls(random, VERSION, &problem, out);
        }
    }
}

/// Each start of the words up to the whole header with a size in it past its limit: too few words come first.
fn short_headers(random: &mut Random, out: &mut Vec<Request>) {
    let good = sized(random, [1, 2, 2, 2, 1], 3);
    for length in 1..=6 {
        for place in 0..length {
            let mut problem = good[..length].to_vec();
            problem[place] = MOST[place] + 1;
            out.push(check_request(problem));
        }
    }
}

/// The all-limits problem of version 1, whose gates are all false, with as many constraints as there may be.
pub fn largest() -> Vec<u32> {
    let base = all_limits();
    let width = base[0] + base[1] + base[2];
    with(&base, &[2 * width + 1; MOST_CONSTRAINTS])
}

/// All limits of version 2: the CNF never fits, and nothing is sought.
fn all_limits_2(out: &mut Vec<Request>) {
    let (version, problem) = (VERSION, largest());
    out.push(check_request(problem.clone()));
    for room in [0, CNF_WORDS] {
        out.push(Request::Cnf { version, problem: problem.clone(), room });
        let (by_numbers, by_clauses, refutation) = (3, 0, vec![i32::MIN]);
        let problem = problem.clone();
        out.push(Request::Refutation { version, problem, refutation, room, by_numbers, by_clauses });
    }
    every_room(VERSION, &problem, out);
    let mut longest = problem;
    longest.resize(PROBLEM_WORDS as usize, 0);
    out.push(check_request(longest));
}

/// Long CNFs with sixteen constraints, into rooms of just their words, of one less and of more.
fn rooms(random: &mut Random, out: &mut Vec<Request>) {
    for head in [[0, 0, 0, 1, 0], [0, 0, 0, 1, 31], [2, 3, 4, 2, 31], [64, 0, 0, 1, 31], [3, 2, 900, 5, 4]] {
        let base = words(random, head);
        let made = constraints(random, &base, MOST_CONSTRAINTS);
        let problem = with(&base, &made);
        let read = check(VERSION, &problem).expect("made well formed");
        let needed = cnf::words(&read).len() as u32;
        let version = VERSION;
        out.extend([needed - 1, needed, needed + 2].map(|room| Request::Cnf {
            version,
            problem: problem.clone(),
            room,
        }));
    }
}

pub fn requests(random: &mut Random, count: usize) -> Vec<Request> {
    let mut out = Vec::new();
    all_limits_2(&mut out);
    long_runs::requests(&mut out);
    find_limits::requests(&mut out);
    for _ in 0..count {
        each_limit(random, &mut out);
        two_sizes(random, &mut out);
        literals(random, &mut out);
        lengths(random, &mut out);
        short_headers(random, &mut out);
        rooms(random, &mut out);
    }
    out
}
