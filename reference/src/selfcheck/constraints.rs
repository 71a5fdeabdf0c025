//! Problems with constraints on themselves: known texts and counts, the place of 20 by a second evaluation, runs that
//! get stuck, and version 2 without a constraint against version 1.

use super::{models_are_witnesses, requests_reach, Tally};
use crate::answers::reply;
use crate::make::constraints::cases::{counts, never_full, stuck};
use crate::make::constraints::shapes::{constrained, with, without, VERSION};
use crate::make::constraints::{judged, largest, sought, twins};
use crate::make::shapes::{looping, small};
use crate::make::T;
use crate::problem::{check, refused, Answer, Problem};
use crate::random::Random;
use crate::requests::Request;
use crate::{cnf, job, witness};
use std::collections::BTreeMap;

/// T with constraints, and one input that is on and off at both positions: the unit clauses after item 2.
const TEXTS: [(&[u32], &str); 2] = [
    (
        &[0, 1, 0, 1, 0, 3, 3, 0, 2, 0, 1, 0, 2, 0],
        "p cnf 6 15\n1 0\n2 0\n-1 0\n1 0\n-2 0\n-3 -2 -2 0\n-3 2 2 0\n-4 2 0\n4 -2 0\n-5 4 0\n5 -4 0\n\
         -3 -6 5 0\n-3 6 -5 0\n-6 3 0\n4 0\n",
    ),
    (
        &[1, 0, 1, 1, 1, 2, 2, 2, 2, 5, 0, 1, 0],
        "p cnf 12 26\n1 0\n-3 2 0\n-3 2 0\n3 -2 -2 0\n-5 4 0\n-5 4 0\n5 -4 -4 0\n2 0\n-3 0\n4 0\n-5 0\n-6 -7 0\n\
         -8 1 0\n8 -1 0\n-10 8 0\n10 -8 0\n-9 1 0\n9 -1 0\n-11 9 0\n11 -9 0\n\
         -6 -12 10 0\n-6 12 -10 0\n-7 -12 11 0\n-7 12 -11 0\n-12 6 7 0\n8 0\n",
    ),
];

fn has_witness(words: &[u32]) -> bool {
    !witness::all(&check(VERSION, words).expect("made well formed")).is_empty()
}

fn figures(tally: &mut Tally) {
    for (words, wanted) in TEXTS {
        let text = job::text(&job::file(2, words));
        tally.expect(text == wanted, || format!("the text of {words:?} is {text}"));
    }
    for (words, count) in counts() {
        let found = models_are_witnesses(tally, VERSION, &words);
        tally.expect(found == count, || format!("{words:?}: {found} witnesses, not {count}"));
    }
    let length = cnf::words(&check(VERSION, &largest()).expect("all limits are allowed")).len();
    tally.expect(length == 437_012 + 2 * 32 * 16, || format!("the largest CNF has {length} words"));
    // A prefix is a witness at one bound, and there is none at the next; without the constraint there is one at both.
    for (before, after) in [(stuck(0), stuck(1)), (never_full(2), never_full(3))] {
        let right = has_witness(&before) && !has_witness(&after);
        tally.expect(right, || format!("{before:?} and {after:?} are not stuck"));
        let free = [before, after].iter().all(|words| has_witness(&with(&without(words), &[])));
        tally.expect(free, || "without constraints no run is stuck".to_string());
    }
    let file = job::text(&job::file(3, &with(&T, &[])));
    tally.expect(file == "refused 15 at 0\n", || format!("version 3: {file}"));
}

/// The value of a literal at a position from the bytes of a run: a latch's by what its next literal was before.
fn value(problem: &Problem, bytes: &[u8], literal: u32, t: usize) -> bool {
    let (inputs, latches) = (problem.inputs, problem.latches.len());
    let variable = literal as usize / 2;
    let on = if variable == 0 {
        false
    } else if variable <= inputs {
        bytes[latches + t * inputs + variable] == 1
    } else if variable <= inputs + latches {
        let latch = variable - inputs - 1;
        match t {
            0 => bytes[1 + latch] == 1,
            _ => value(problem, bytes, problem.latches[latch].0, t - 1),
        }
    } else {
        let (left, right) = problem.gates[variable - inputs - latches - 1];
        value(problem, bytes, left, t) && value(problem, bytes, right, t)
    };
    on != (literal % 2 == 1)
}

/// Whether a run is a prefix, the answer without constraints, and where a constraint is first false: at the first
/// position, a later one or the last.
type Sort = (bool, u32, &'static str);

/// The judge's answers to all candidates: those without constraints, but 20 by the second evaluation between 9 and 10.
fn places_of_20(tally: &mut Tally, words: &[u32], sorts: &mut BTreeMap<Sort, usize>) {
    let problem = check(VERSION, words).expect("made well formed");
    let free = Problem { constraints: vec![], ..problem.clone() };
    let holds = |bytes: &[u8], t: usize| problem.constraints.iter().all(|&c| value(&problem, bytes, c, t));
    for bytes in witness::candidates(&problem) {
        let without = witness::judge(&free, &bytes);
        let broken = (0..=problem.k).find(|&t| !holds(&bytes, t));
        let wanted = match broken {
            Some(position) if matches!(without.number, 0 | 10) => refused(20, position),
            _ => without,
        };
        let answer = witness::judge(&problem, &bytes);
        tally.expect(answer == wanted, || format!("{words:?}, {bytes:?}: {answer:?}, not {wanted:?}"));
        let position = broken.map(|position| match position {
            0 => "first",
            last if last == problem.k => "last",
            _ => "between",
        });
        if let Some(position) = position {
            *sorts.entry((bytes[0] == 0, without.number, position)).or_default() += 1;
        }
    }
}

/// Every order of answers comes up: a constraint broken at each sort of position, alone, where the loop is open too, and
/// where the formula is false too.
fn every_breach(tally: &mut Tally, random: &mut Random) {
    let mut sorts = BTreeMap::new();
    for _ in 0..400 {
        places_of_20(tally, &judged(random), &mut sorts);
    }
    for position in ["first", "between", "last"] {
        for (prefix, without) in [(true, 0), (true, 10), (false, 0), (false, 9), (false, 10)] {
            let times = sorts.get(&(prefix, without, position)).copied().unwrap_or(0);
            tally.expect(times > 100, || format!("{position}, prefix {prefix}, {without}: {times} times"));
        }
    }
}

/// The number of witnesses of a problem that are prefixes, and of those that are lassos.
fn sorts_of_witnesses(words: &[u32]) -> (usize, usize) {
    let all = witness::all(&check(VERSION, words).expect("made well formed"));
    let prefixes = all.iter().filter(|bytes| bytes[0] == 0).count();
    (prefixes, all.len() - prefixes)
}

/// From a bound to the next a lasso stays; a prefix stays where there is no constraint, else it may get stuck.
fn next_bound(tally: &mut Tally, random: &mut Random) {
    let mut stuck = 0;
    for _ in 0..4_000 {
        let base = if random.one_in(2) { small(random, 6) } else { looping(random) };
        let words = constrained(random, &base);
        let (prefixes, lassos) = sorts_of_witnesses(&words);
        let mut later = words.clone();
        later[4] += 1;
        let (later_prefixes, later_lassos) = sorts_of_witnesses(&later);
        tally.expect(lassos == 0 || later_lassos > 0, || format!("{words:?}: no lasso at the next bound"));
        let stays = prefixes == 0 || later_prefixes > 0;
        tally.expect(stays || words[5] > 0, || format!("{words:?}: no prefix at the next bound"));
        stuck += usize::from(prefixes > 0 && later_prefixes + later_lassos == 0);
    }
    tally.expect(stuck > 5, || format!("{stuck} problems get stuck"));
}

/// What version 2 answers where D is 0 and version 1 answers so: the words from the sixth on are one place further.
fn one_further(answer: Answer, words: usize) -> Answer {
    let moved = match answer.number {
        1 => words >= 5,
        3..=5 => true,
        _ => false,
    };
    Answer { place: answer.place + usize::from(moved), ..answer }
}

fn twins_agree(tally: &mut Tally, random: &mut Random) {
    for _ in 0..1_000 {
        let base = small(random, 8);
        for (mut one, two) in twins(random, &base) {
            let (before, after) = (reply(&one), reply(&two));
            let length = one.problem_mut().map_or(0, |(_, problem)| problem.len());
            let wanted = one_further(before.answer, length);
            let same = after.answer == wanted && after.buffers == before.buffers;
            tally.expect(same, || format!("{one:?}: {:?}, but {:?}", before.answer, after.answer));
        }
    }
}

/// Versions that are not known, whatever the words are.
fn unknown_versions(tally: &mut Tally) {
    for version in [0, 3, 4, 255, 256, 258, 1 << 25, u32::MAX] {
        for problem in [vec![], with(&T, &[]), with(&T, &[3]), T.to_vec()] {
            let answer = reply(&Request::Check { version, problem }).answer;
            tally.expect(answer == refused(15, 0), || format!("version {version}: {answer:?}"));
        }
    }
}

/// The answers that each call can give about a problem of version 2.
const ANSWERS: [(u8, &[u32]); 5] = [
    (1, &[0, 1, 2, 3, 4, 5, 15]),
    (2, &[0, 1, 2, 3, 4, 5, 6, 15]),
    (3, &[0, 1, 2, 3, 4, 5, 7, 8, 9, 10, 15, 20]),
    (5, &[0, 1, 2, 3, 4, 5, 6, 11, 12, 13, 14, 15]),
    (6, &[0, 1, 2, 3, 4, 5, 15, 17, 18, 29]),
];

const KINDS: [(&str, usize); 5] = [
    ("constraints", 1_000),
    ("constraint-witness", 20),
    ("constraint-refute", 50),
    ("constraint-find", 1_000),
    ("constraint-cases", 1),
];

pub fn run(tally: &mut Tally, random: &mut Random, seed: u64) {
    figures(tally);
    unknown_versions(tally);
    every_breach(tally, random);
    next_bound(tally, random);
    twins_agree(tally, random);
    let (problems, mut with_witness) = (10_000, 0);
    for _ in 0..problems {
        let base = if random.one_in(2) { small(random, 8) } else { looping(random) };
        let words = constrained(random, &base);
        with_witness += usize::from(models_are_witnesses(tally, VERSION, &words) > 0);
    }
    let mixed = with_witness > problems / 10 && with_witness < problems - problems / 10;
    tally.expect(mixed, || format!("{with_witness} of {problems} problems with constraints have a witness"));
    for number in 0..1_000 {
        let words = sought(random, number);
        if check(VERSION, &words).expect("made well formed").witness_length() <= 13 {
            models_are_witnesses(tally, VERSION, &words);
        }
    }
    requests_reach(tally, seed, &KINDS, &ANSWERS);
}
