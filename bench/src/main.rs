//! Times each proved call against plain Rust of the same job, in one run, and prints a line for each: the work, both medians, the ratio.

mod agree;
mod plain;
mod proved;
#[path = "../../reference/src/random.rs"]
mod random;
mod samples;
mod timing;

use plain::aiger::MOST_WORDS;
use plain::counts::Counts;
use plain::{answer, Answer, YES};
use random::Random;
use samples::circuits::{
    constrained, largest, largest_constrained, lassos, prefixes, Shown, CONSTRAINED, CONSTRAINTS, VERSION,
};
use samples::refuted::{self, Refuted};
use samples::searches::{self, Sought};
use samples::texts;
use std::hint::black_box;
use timing::{medians, Medians};

const SEED: u64 = 1;

/// Several problems in each round, so that no branch predictor learns one by heart.
const PROBLEMS: usize = 16;

/// The words of the largest CNF, without constraints and with the units of as many as there may be at 32 positions.
const LARGEST: usize = 437_012;
const LARGEST_CONSTRAINED: usize = LARGEST + 2 * 32 * CONSTRAINTS;

/// Rounds of a call; a short one has more, a long one fewer.
const ROUNDS: usize = 101;
const SHORT_ROUNDS: usize = 2_001;
const LONG_ROUNDS: usize = 31;

/// More bytes than the witnesses that are sought have.
const SEARCH_ROOM: usize = 64;

/// Rounds of a search, and of the one that takes seconds.
const SEARCH_ROUNDS: usize = 9;
const LONGEST_SEARCH_ROUNDS: usize = 3;

fn print(call: &str, work: &str, Medians { proved, plain }: Medians) {
    let [proved, plain] = [proved, plain].map(|time| time.as_secs_f64() * 1e6);
    let ratio = proved / plain;
    println!("{call:<20}{work:<42}{proved:>10.1} µs{plain:>10.1} µs{ratio:>8.2}");
}

/// A number with a comma before each three digits.
fn grouped(number: usize) -> String {
    let digits = number.to_string().into_bytes();
    let groups: Vec<_> = digits.rchunks(3).rev().map(String::from_utf8_lossy).collect();
    groups.join(",")
}

/// What the work says of the constraints, if there are any.
fn constraints(version: u32) -> String {
    match version {
        CONSTRAINED => format!(", {CONSTRAINTS} constraints"),
        _ => String::new(),
    }
}

fn check_problems(shown: &[Shown]) {
    let all = |check: fn(u32, &[u32]) -> (Answer, Counts)| {
        // The whole answer is used, or plain Rust would leave out numbers that nobody looks at.
        let answers = shown.iter().map(|s| black_box(check(s.version, &s.words)));
        answers.filter(|&(answer, _)| answer == YES).count()
    };
    let proved = || all(proved::check_problem);
    let plain = || all(plain::problem::check);
    assert_eq!((proved(), plain()), (shown.len(), shown.len()), "both accept every problem");
    let work = format!("{} problems, all limits{}", shown.len(), constraints(shown[0].version));
    print("check a problem", &work, medians(SHORT_ROUNDS, proved, plain));
}

fn judge_witnesses(kind: &str, shown: &[Shown]) {
    let all = |judge: fn(u32, &[u32], &[u8]) -> Answer| {
        let answers = shown.iter().map(|s| judge(s.version, &s.words, &s.witness));
        answers.filter(|&answer| answer == YES).count()
    };
    let proved = || all(proved::judge_witness);
    let plain = || all(plain::witness::judge);
    assert_eq!((proved(), plain()), (shown.len(), shown.len()), "both accept every witness");
    let work = format!("{} {kind}, all limits{}", shown.len(), constraints(shown[0].version));
    print("judge a witness", &work, medians(ROUNDS, proved, plain));
}

fn write_cnf(version: u32, words: &[u32], size: usize) {
    let (mut room, mut plain_room) = (vec![7; size], vec![7; size]);
    let mut proved = || proved::write_cnf(version, words, &mut room);
    let mut plain = || plain::cnf::write(version, words, &mut plain_room);
    assert_eq!((proved(), plain()), (answer(0, size), answer(0, size)), "both write as many words");
    let work = format!("{} words, all limits{}", grouped(size), constraints(version));
    print("write the CNF", &work, medians(ROUNDS, proved, plain));
    assert!(room == plain_room, "both write one CNF");
}

fn judge_refutation(kind: &str, of: &Refuted) {
    let Refuted { variables, cnf, refutation, clauses, steps } = of;
    let areas = || (vec![0; *variables as usize + 1], vec![0; clauses + steps]);
    let (mut values, mut places) = areas();
    let (mut plain_values, mut plain_places) = areas();
    let mut proved = || proved::judge_refutation(*variables, cnf, refutation, &mut values, &mut places);
    let mut plain =
        || plain::refutation::judge(*variables, cnf, refutation, &mut plain_values, &mut plain_places);
    assert_eq!((proved(), plain()), (YES, YES), "both accept the refutation");
    let work = format!("{} steps{kind}, {} words", grouped(*steps), grouped(refutation.len()));
    let rounds = if *steps < 100_000 { ROUNDS } else { LONG_ROUNDS };
    print("judge a refutation", &work, medians(rounds, proved, plain));
}

fn find(work: &str, Sought { version, words, witness }: &Sought, rounds: usize) {
    let answer = witness.as_ref().map_or(answer(29, 0), |witness| answer(0, witness.len()));
    let (mut room, mut plain_room) = ([7; SEARCH_ROOM], [7; SEARCH_ROOM]);
    // The answers are looked at in the rounds: a round more would take as long again.
    let proved = || assert_eq!(proved::find(*version, words, &mut room), answer, "proved code finds it");
    let plain =
        || assert_eq!(plain::finder::find(*version, words, &mut plain_room), answer, "plain Rust finds it");
    print("find a witness", work, medians(rounds, proved, plain));
    let mut wanted = [7; SEARCH_ROOM];
    if let Some(witness) = witness {
        wanted[..witness.len()].copy_from_slice(witness);
    }
    assert!(room == wanted && plain_room == wanted, "both write the first witness, or nothing");
}

fn find_all() {
    let all = [
        ("65,536 runs, all limits, none", searches::none_of_latches(SEED), LONGEST_SEARCH_ROUNDS),
        ("65,536 runs by one input, none", searches::none_of_inputs(SEED), SEARCH_ROUNDS),
        ("65,536 runs, 16 constraints, all met", searches::none_of_met(SEED), SEARCH_ROUNDS),
        ("65,536 runs, most break a constraint", searches::none_of_broken(SEED), SEARCH_ROUNDS),
        ("1,024 runs, all loops close, none", searches::none_of_loops(SEED, 10), SEARCH_ROUNDS),
        ("4,096 runs, the last a lasso", searches::last_of_lassos(SEED, 12), SEARCH_ROUNDS),
        ("65,536 counts, one of the last", searches::meter(), SEARCH_ROUNDS),
    ];
    for (work, sought, rounds) in &all {
        find(work, sought, *rounds);
    }
}

/// Reads or writes all that is given, each into its room; answers how many it took.
fn into_rooms<S, T: Copy>(
    given: &[Vec<S>],
    rooms: &mut [Vec<T>],
    call: fn(&[S], &mut [T]) -> Answer,
) -> usize {
    let answers = given.iter().zip(rooms).map(|(given, room)| call(given, room));
    answers.filter(|answer| answer.number == 0).count()
}

fn read_circuits(work: &str, given: &[Vec<u8>]) {
    let rooms = vec![vec![7; MOST_WORDS]; given.len()];
    let (mut rooms, mut plain_rooms) = (rooms.clone(), rooms);
    let mut proved = || into_rooms(given, &mut rooms, proved::read_circuit);
    let mut plain = || into_rooms(given, &mut plain_rooms, plain::aiger::read);
    assert_eq!((proved(), plain()), (given.len(), given.len()), "both read every text");
    print("read a circuit", work, medians(SHORT_ROUNDS, proved, plain));
    assert!(rooms == plain_rooms, "both read the same words");
}

fn write_circuits(work: &str, given: &[Vec<u32>]) {
    let rooms: Vec<_> = given.iter().map(|words| vec![7; texts::text(words).len()]).collect();
    let (mut rooms, mut plain_rooms) = (rooms.clone(), rooms);
    let mut proved = || into_rooms(given, &mut rooms, proved::write_circuit);
    let mut plain = || into_rooms(given, &mut plain_rooms, plain::aiger::write);
    assert_eq!((proved(), plain()), (given.len(), given.len()), "both write every circuit");
    print("write a circuit", work, medians(SHORT_ROUNDS, proved, plain));
    assert!(rooms == plain_rooms, "both write the same texts");
}

fn circuits() {
    let largest = texts::circuits(SEED, PROBLEMS);
    let texts: Vec<_> = largest.iter().map(|words| texts::text(words)).collect();
    let named: Vec<_> = texts.iter().map(|text| texts::with_symbols(text)).collect();
    let meter_texts = texts::meters(PROBLEMS);
    let meters: Vec<_> = meter_texts.iter().map(|text| texts::words(text)).collect();
    read_circuits(&format!("{PROBLEMS} texts, all limits"), &texts);
    read_circuits(&format!("{PROBLEMS} texts, 100 KB after each"), &named);
    read_circuits(&format!("{PROBLEMS} texts, small meters"), &meter_texts);
    write_circuits(&format!("{PROBLEMS} circuits, all limits"), &largest);
    write_circuits(&format!("{PROBLEMS} circuits, small meters"), &meters);
}

fn main() {
    let (prefixes, lassos, largest) = (prefixes(SEED, PROBLEMS), lassos(SEED, PROBLEMS), largest(SEED));
    let constrained = [constrained(SEED, &prefixes), constrained(SEED, &lassos)];
    let largest_constrained = largest_constrained(SEED);
    let refuted: Vec<Refuted> = refuted::all().collect();
    let trivial = refuted::with_trivial(SEED, &refuted[1]);

    let random = &mut Random::new(SEED);
    let mut numbers = agree::cnfs(random, VERSION, &largest, LARGEST);
    numbers.extend(agree::cnfs(random, CONSTRAINED, &largest_constrained, LARGEST_CONSTRAINED));
    for shown in prefixes.iter().chain(&lassos).chain(constrained.iter().flatten()) {
        numbers.extend(agree::checks(random, shown));
        numbers.extend(agree::witnesses(random, shown));
    }
    numbers.extend(agree::refutations(random, &refuted[0]));
    numbers.extend(agree::refutations(random, &refuted::with_trivial(SEED, &refuted[0])));
    numbers.extend(agree::searches(random));
    numbers.extend(agree::readings(random));
    numbers.extend(agree::longest_texts(random));
    numbers.extend(agree::writings(random));
    println!("both give the same answers to some thousands of requests, among them {numbers:?}");

    println!("{:<20}{:<42}{:>13}{:>13}{:>8}", "call", "work", "proved", "plain Rust", "ratio");
    let [constrained_prefixes, constrained_lassos] = &constrained;
    check_problems(&prefixes);
    check_problems(constrained_prefixes);
    judge_witnesses("prefixes", &prefixes);
    judge_witnesses("prefixes", constrained_prefixes);
    judge_witnesses("lassos", &lassos);
    judge_witnesses("lassos", constrained_lassos);
    write_cnf(VERSION, &largest, LARGEST);
    write_cnf(CONSTRAINED, &largest_constrained, LARGEST_CONSTRAINED);
    for refuted in &refuted {
        judge_refutation("", refuted);
    }
    judge_refutation(", half trivial", &trivial);
    circuits();
    find_all();
}
