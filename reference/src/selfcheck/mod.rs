//! Checks of this program on itself: the document's figures, and the CNF against the meaning.

mod aiger;
mod constraints;

use crate::answers::{self, judge_problem_refutation};
use crate::make::{self, shapes};
use crate::problem::{check, Answer, Problem};
use crate::random::Random;
use crate::splitting::Step;
use crate::{cnf, finder, job, models, refutation, splitting, witness};

const T_TEXT: &str = "p cnf 6 12\n1 0\n-2 0\n-3 -2 -2 0\n-3 2 2 0\n-4 2 0\n4 -2 0\n-5 4 0\n5 -4 0\n\
                      -3 -6 5 0\n-3 6 -5 0\n-6 3 0\n4 0\n";

struct Tally {
    passed: usize,
    failed: usize,
}

impl Tally {
    fn expect(&mut self, holds: bool, what: impl FnOnce() -> String) {
        if holds {
            self.passed += 1;
        } else {
            self.failed += 1;
            println!("failed: {}", what());
        }
    }
}

/// The witness that a model of the problem's CNF stands for.
fn witness_of(problem: &Problem, model: &[bool]) -> Vec<u8> {
    let start = (0..=problem.k).find(|&l| model[cnf::selector(problem, l)]);
    let bit = |v: usize, t: usize| u8::from(model[cnf::circuit_variable(problem, v, t)]);
    let mut bytes = vec![start.map_or(0, |l| l as u8 + 1)];
    bytes.extend((0..problem.latches.len()).map(|latch| bit(problem.inputs + 1 + latch, 0)));
    for t in 0..=problem.k {
        bytes.extend((1..=problem.inputs).map(|input| bit(input, t)));
    }
    bytes
}

/// The models stand for the witnesses, each for one and each witness for one; the finder has the first of all
/// candidates that the judge accepts, and has none exactly if there is no model.
fn models_are_witnesses(tally: &mut Tally, version: u32, words: &[u32]) -> usize {
    let problem = check(version, words).expect("made well formed");
    let cnf = cnf::words(&problem);
    let models = models::all(cnf::variables(&problem), &cnf::clauses(&cnf));
    let mut read: Vec<Vec<u8>> = models.iter().map(|model| witness_of(&problem, model)).collect();
    read.sort();
    let witnesses = witness::all(&problem);
    tally.expect(read == witnesses, || {
        format!("{words:?}: {} models, {} witnesses", read.len(), witnesses.len())
    });
    let found = finder::first(&problem);
    tally.expect(found.as_ref() == witnesses.first(), || format!("{words:?}: found {found:?}"));
    tally.expect(found.is_none() == models.is_empty(), || format!("{words:?}: {} models", models.len()));
    witnesses.len()
}

/// Problems as call 6 is tried on, with up to twelve bits: most of their latches are fixed.
fn finds_the_first(tally: &mut Tally, random: &mut Random) {
    let mut tried = 0;
    for number in 0..2_000 {
        let words = make::subject(random, number);
        let problem = check(1, &words).expect("made well formed");
        if problem.witness_length() <= 13 {
            models_are_witnesses(tally, 1, &words);
            tried += 1;
        }
    }
    tally.expect(tried > 1_000, || format!("the finder was tried on {tried} problems"));
}

/// What call 6 answers of T and of the counter, with room to spare.
fn found_figures(tally: &mut Tally) {
    let (f_12, g_f_12) = ([0, 12, 0, 4, 0, 0], [0, 12, 0, 4, 0, 0, 5, 1, 0]);
    let cases: [(Vec<u32>, u32, usize, [u8; 4]); 5] = [
        (make::T.to_vec(), 29, 0, [7, 7, 7, 7]),
        (make::counter(2, &f_12), 29, 0, [7, 7, 7, 7]),
        (make::counter(3, &f_12), 0, 3, [0, 0, 0, 7]),
        (make::counter(3, &g_f_12), 0, 3, [1, 0, 0, 7]),
        (make::counter(7, &g_f_12), 0, 3, [1, 0, 0, 7]),
    ];
    for (words, number, place, wanted) in cases {
        let mut room = [7; 4];
        let answer = finder::find(&check(1, &words).expect("well formed"), &mut room);
        let right = answer == Answer { number, place } && room == wanted;
        tally.expect(right, || format!("{words:?}: {answer:?}, {room:?}"));
    }
}

fn figures(tally: &mut Tally) {
    let text = job::text(&job::file(1, &make::T));
    tally.expect(text == T_TEXT, || format!("the text of T is {text}"));
    for (words, count) in make::counts() {
        let found = models_are_witnesses(tally, 1, &words);
        tally.expect(found == count, || format!("{words:?}: {found} witnesses, not {count}"));
    }
    let largest = check(1, &make::all_limits()).expect("all limits are allowed");
    let length = cnf::words(&largest).len();
    tally.expect(length == 437_012, || format!("the largest CNF has {length} words"));
    let cases: [(&[i32], u32, usize); 7] = [
        (&[0, 2, 12, 5, 0], 0, 0),
        (&[0, 12, 5, 0], 13, 0),
        (&[], 14, 0),
        (&[1, -1, 0, 0, 0, 2, 12, 5, 0], 0, 0),
        (&[1, -1, 0, 1, 0], 13, 0),
        (&[1, -1, 0, 0], 14, 1),
        (&[1, -1, 0, 0, 0, 13, 2, 12, 5, 0], 13, 1),
    ];
    for (refutation, number, place) in cases {
        let (mut room, mut first, mut second) = (vec![7; 40], vec![7; 8], vec![7; 15]);
        let answer = judge_problem_refutation(1, &make::T, refutation, &mut room, &mut first, &mut second);
        let right = answer == Answer { number, place };
        tally.expect(right, || format!("T and {refutation:?}: {answer:?}"));
        let clear = first[..7].iter().all(|&word| word == 0) && first[7] == 7;
        tally.expect(clear, || format!("T and {refutation:?}: area {first:?}"));
    }
}

fn judge(variables: usize, clauses: &[&[i32]], words: &[i32]) -> Answer {
    let (mut first, mut second) = (vec![0; variables + 1], vec![0; clauses.len() + words.len()]);
    refutation::judge(variables, clauses, words, &mut first, &mut second)
}

/// With steps that are trivially true put into it a refutation gets the answer that is laid down; none is accepted where
/// a clause gives way to one that is trivially true and a model is left.
fn trivial_steps(
    tally: &mut Tally,
    random: &mut Random,
    variables: usize,
    clauses: &[Vec<i32>],
    steps: &[Step],
) {
    let of = make::Of { variables: variables as i32, clauses: clauses.len() };
    let variants = make::variants(random, of, steps);
    let parts: Vec<&[i32]> = clauses.iter().map(Vec::as_slice).collect();
    for (steps, wanted) in &variants {
        let answer = judge(variables, &parts, &splitting::words(steps));
        tally.expect(answer == *wanted, || format!("{parts:?}: {steps:?} got {answer:?}, not {wanted:?}"));
    }
    let mut parts = parts;
    let at = random.below(parts.len());
    parts[at] = &[1, -1];
    let left = !models::all_by_trying(variables, &parts).is_empty();
    for (steps, _) in &variants {
        let sound = !left || judge(variables, &parts, &splitting::words(steps)).number != 0;
        tally.expect(sound, || format!("{parts:?}: {steps:?} is accepted"));
    }
}

/// Refutations by splitting are accepted; damaged ones never where a model is left.
fn refutations(tally: &mut Tally, random: &mut Random) {
    let (variables, mut clauses) = make::unsatisfiable(random);
    let parts: Vec<&[i32]> = clauses.iter().map(Vec::as_slice).collect();
    let steps = splitting::refute(random, &parts, 200).expect("it has no model");
    let accepted = judge(variables, &parts, &splitting::words(&steps));
    tally.expect(accepted.number == 0, || format!("{parts:?}: {steps:?} got {accepted:?}"));
    if variables > 0 {
        trivial_steps(tally, random, variables, &clauses, &steps);
    }
    clauses.remove(random.below(clauses.len()));
    let parts: Vec<&[i32]> = clauses.iter().map(Vec::as_slice).collect();
    let mut models = models::all(variables, &parts);
    models.sort();
    let tried = models::all_by_trying(variables, &parts);
    tally.expect(models == tried, || format!("{parts:?}: models differ"));
    let of = make::Of { variables: variables as i32, clauses: parts.len() };
    for _ in 0..20 {
        let words = make::damaged(random, of, &steps);
        let sound = judge(variables, &parts, &words).number != 0 || models.is_empty();
        tally.expect(sound, || format!("{parts:?}: {words:?} is accepted"));
    }
}

/// The answers that each call can give, those about a problem for version 1.
const ANSWERS: [(u8, &[u32]); 8] = [
    (1, &[0, 1, 2, 3, 4, 5, 15]),
    (2, &[0, 1, 2, 3, 4, 5, 6, 15]),
    (3, &[0, 1, 2, 3, 4, 5, 7, 8, 9, 10, 15]),
    (4, &[0, 11, 12, 13, 14, 16]),
    (5, &[0, 1, 2, 3, 4, 5, 6, 11, 12, 13, 14, 15]),
    (6, &[0, 1, 2, 3, 4, 5, 15, 17, 18, 29]),
    (7, &[0, 19, 27]),
    (8, &[0, 1, 2, 3, 4, 27]),
];

const KINDS: [(&str, usize); 7] = [
    ("trivial", 100),
    ("cnf", 250),
    ("problem", 1_000),
    ("witness", 20),
    ("refute", 20),
    ("find", 1_000),
    ("aiger", 500),
];

/// The requests of these kinds made from the seed lead each call to each of its answers, and to no other.
fn requests_reach(tally: &mut Tally, seed: u64, kinds: &[(&str, usize)], answers: &[(u8, &[u32])]) {
    let made = kinds.iter().flat_map(|(kind, count)| make::requests(seed, kind, *count).expect("a kind"));
    let times = answers::tally(&made.collect::<Vec<_>>());
    for &(call, wanted) in answers {
        let mut found: Vec<u32> = times.keys().filter(|key| key.0 == call).map(|key| key.1).collect();
        found.dedup();
        tally.expect(found == wanted, || format!("call {call} has the answers {found:?}"));
    }
    for (sort, least) in [(Some(0), 100), (Some(1), 100), (Some(2), 10), (Some(3), 5)] {
        let times = times.get(&(6, 0, sort)).map_or(0, Vec::len);
        tally.expect(times > least, || format!("the first byte {sort:?} is found {times} times"));
    }
}

/// Steps that are trivially true lead to each of the answers that they can lead to.
fn trivial_steps_reach(tally: &mut Tally, seed: u64) {
    let trivial = make::requests(seed, "trivial", 100).expect("a kind");
    let times = answers::tally(&trivial);
    for (call, least) in [(4, 100), (5, 20)] {
        for answer in [0, 13, 14] {
            let times = times.get(&(call, answer, None)).map_or(0, Vec::len);
            tally.expect(times > least, || {
                format!("trivial: call {call} has the answer {answer} {times} times")
            });
        }
    }
}

/// Prints `N passed, M failed`; whether nothing failed.
pub fn run(seed: u64) -> bool {
    let mut tally = Tally { passed: 0, failed: 0 };
    figures(&mut tally);
    found_figures(&mut tally);
    let mut random = Random::new(seed);
    let mut with_witness = 0;
    let problems = 20_000;
    for _ in 0..problems {
        let looping = random.one_in(2);
        let words = if looping { shapes::looping(&mut random) } else { shapes::small(&mut random, 8) };
        if models_are_witnesses(&mut tally, 1, &words) > 0 {
            with_witness += 1;
        }
    }
    // A generator that only ever makes one sort of problem would test little.
    let mixed = with_witness > problems / 10 && with_witness < problems - problems / 10;
    tally.expect(mixed, || format!("{with_witness} of {problems} problems have a witness"));
    for _ in 0..2_000 {
        refutations(&mut tally, &mut random);
    }
    finds_the_first(&mut tally, &mut random);
    aiger::run(&mut tally, &mut random, seed);
    constraints::run(&mut tally, &mut random, seed);
    trivial_steps_reach(&mut tally, seed);
    requests_reach(&mut tally, seed, &KINDS, &ANSWERS);
    println!("{} passed, {} failed", tally.passed, tally.failed);
    tally.failed == 0
}
