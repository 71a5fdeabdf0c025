//! That both versions do the same job: on damaged requests, and on other runs, they give the same answers and leave the same buffers.

use crate::plain::aiger::{self, LONGEST_TEXT};
use crate::plain::problem::MOST;
use crate::plain::{answer, Answer};
use crate::random::Random;
use crate::samples::circuits::{resized, Shown, CONSTRAINED, VERSION};
use crate::samples::refuted::{hinted, Refuted};
use crate::samples::searches::small;
use crate::samples::texts;
use crate::{plain, proved};
use std::collections::BTreeSet;

/// A version that no problem has.
const UNKNOWN: u32 = 0;

/// Where the inputs begin in a witness.
const INPUTS_FROM: usize = 1 + MOST[1] as usize;

/// How often each request is damaged.
const TIMES: usize = 200;

/// How many small problems are searched.
const SEARCHES: usize = 4_000;

/// How many circuits are read and written.
const CIRCUITS: usize = 10_000;

/// What a text is damaged with: bytes, more of those that it may have, and digits that make a number too large or begin it with zeros.
const BYTES: &[u8] = b"0123456789 \n 1\n2-/:\t\ra";
const LONG: [&str; 4] = ["214748364", "4294967296", "18446744073709551616", "00"];

/// A buffer that is empty, cut short, has a word too many, or another word in one place.
fn damaged<T: Copy>(random: &mut Random, words: &[T], word: impl Fn(&mut Random) -> T) -> Vec<T> {
    let mut words = words.to_vec();
    let place = random.below(words.len());
    match random.below(16) {
        0 => words.clear(),
        1 => words.truncate(place),
        2 => words.push(word(random)),
        _ => words[place] = word(random),
    }
    words
}

fn problem_word(random: &mut Random) -> u32 {
    random.below(3_000) as u32
}

/// The numbers of the answers that came.
type Numbers = BTreeSet<u32>;

fn same(numbers: &mut Numbers, proved: Answer, plain: Answer) {
    assert_eq!(proved, plain, "both give one answer");
    numbers.insert(proved.number);
}

/// Mostly this version, at times another or one that no problem has.
fn told(random: &mut Random, version: u32) -> u32 {
    if random.one_in(25) {
        random.pick(&[UNKNOWN, VERSION, CONSTRAINED])
    } else {
        version
    }
}

/// Half of the problems keep all limits and half have other sizes, so that every number that goes into a closed form moves.
pub fn checks(random: &mut Random, shown: &Shown) -> Numbers {
    let mut numbers = Numbers::new();
    for _ in 0..TIMES {
        let words =
            if random.one_in(2) { shown.words.clone() } else { resized(random, shown.version, &shown.words) };
        let words = if random.one_in(2) { words } else { damaged(random, &words, problem_word) };
        let version = told(random, shown.version);
        let (proved, proved_counts) = proved::check_problem(version, &words);
        let (plain, plain_counts) = plain::problem::check(version, &words);
        same(&mut numbers, proved, plain);
        assert_eq!(proved_counts, plain_counts, "both give the same numbers of the CNF");
    }
    numbers
}

pub fn witnesses(random: &mut Random, shown: &Shown) -> Numbers {
    let mut numbers = Numbers::new();
    for _ in 0..TIMES {
        let (mut words, mut witness) = (shown.words.clone(), shown.witness.clone());
        match random.below(3) {
            0 => words = damaged(random, &words, problem_word),
            1 => witness = damaged(random, &witness, |random| random.below(3) as u8),
            _ => witness[INPUTS_FROM..].fill_with(|| random.below(2) as u8),
        }
        let version = told(random, shown.version);
        let proved = proved::judge_witness(version, &words, &witness);
        same(&mut numbers, proved, plain::witness::judge(version, &words, &witness));
    }
    numbers
}

pub fn cnfs(random: &mut Random, version: u32, words: &[u32], room: usize) -> Numbers {
    let mut numbers = Numbers::new();
    for _ in 0..TIMES {
        let words = damaged(random, words, problem_word);
        let room = vec![7; room - random.below(2)];
        let (mut proved_room, mut plain_room) = (room.clone(), room);
        let proved = proved::write_cnf(version, &words, &mut proved_room);
        same(&mut numbers, proved, plain::cnf::write(version, &words, &mut plain_room));
        assert!(proved_room == plain_room, "both leave one room");
    }
    numbers
}

pub fn refutations(random: &mut Random, of: &Refuted) -> Numbers {
    let mut numbers = Numbers::new();
    let literal =
        |random: &mut Random| random.below(2 * of.variables as usize + 3) as i32 - of.variables as i32 - 1;
    for _ in 0..TIMES {
        let (mut cnf, mut refutation) = (of.cnf.clone(), of.refutation.clone());
        match random.below(4) {
            0 => cnf = damaged(random, &cnf, literal),
            1 => refutation = hinted(random, of),
            _ => refutation = damaged(random, &refutation, literal),
        }
        let areas =
            (vec![7; of.variables as usize + 1], vec![7; of.clauses + of.steps + 1 - random.below(3)]);
        let (mut proved_areas, mut plain_areas) = (areas.clone(), areas);
        let (values, places) = &mut proved_areas;
        let proved = proved::judge_refutation(of.variables, &cnf, &refutation, values, places);
        let (values, places) = &mut plain_areas;
        same(&mut numbers, proved, plain::refutation::judge(of.variables, &cnf, &refutation, values, places));
        assert!(proved_areas == plain_areas, "both leave the same work areas");
    }
    numbers
}

/// Small problems of 0 to 18 free bits, so that 17 comes on either side of its limit; few of many, since those take long. Rooms are too
/// short, as long as they need be, or longer.
pub fn searches(random: &mut Random) -> Numbers {
    let mut numbers = Numbers::new();
    for _ in 0..SEARCHES {
        let free = if random.one_in(10) { random.between(12, 18) } else { random.below(12) };
        let (version, mut words) = small(random, free);
        let needed = 1 + (words[1] + words[0] * (words[4] + 1)) as usize;
        let size = match random.below(8) {
            0 => random.below(needed),
            1..4 => needed + random.below(9),
            _ => needed,
        };
        if random.one_in(6) {
            words = damaged(random, &words, |random| random.below(20) as u32);
        }
        let version = told(random, version);
        let (mut proved_room, mut plain_room) = (vec![7; size], vec![7; size]);
        let proved = proved::find(version, &words, &mut proved_room);
        same(&mut numbers, proved, plain::finder::find(version, &words, &mut plain_room));
        assert_eq!(proved_room, plain_room, "both leave one room");
    }
    numbers
}

/// Words of any sizes, few of them many, since those take long.
fn circuit(random: &mut Random) -> Vec<u32> {
    let most = if random.one_in(100) { aiger::MOST } else { random.pick(&[[2, 2, 3, 2], [9, 9, 60, 9]]) };
    let sizes = most.map(|size| random.between(0, size as usize));
    texts::circuit(random, sizes)
}

/// A room that is too short, as long as need be, or longer.
fn room<T: Copy>(random: &mut Random, needed: usize, filled: T) -> Vec<T> {
    let size = match random.below(8) {
        0 => random.below(needed + 1),
        1..4 => needed + random.below(9),
        _ => needed,
    };
    vec![filled; size]
}

/// A text with another byte in one place, one byte or many digits more, one byte less, or damaged as any buffer.
fn damaged_text(random: &mut Random, mut text: Vec<u8>) -> Vec<u8> {
    if text.is_empty() {
        return text;
    }
    let most = random.pick(&[20, 60, usize::MAX]);
    let place = random.below(text.len().min(most));
    let byte = |random: &mut Random| random.pick(BYTES);
    match random.below(6) {
        0 => text.insert(place, byte(random)),
        1 => drop(text.remove(place)),
        2 => drop(text.splice(place..place, random.pick(&LONG).bytes())),
        3 => return damaged(random, &text, byte),
        _ => text[place] = byte(random),
    }
    text
}

pub fn readings(random: &mut Random) -> Numbers {
    let mut numbers = Numbers::new();
    for _ in 0..CIRCUITS {
        let words = circuit(random);
        let mut text = texts::text(&words);
        if random.one_in(4) {
            text.extend(b"i0 a name\nc\nand a comment");
        }
        let times = random.below(3);
        for _ in 0..times {
            text = damaged_text(random, text);
        }
        let room = room(random, words.len(), 7);
        let (mut proved_room, mut plain_room) = (room.clone(), room);
        let proved = proved::read_circuit(&text, &mut proved_room);
        same(&mut numbers, proved, aiger::read(&text, &mut plain_room));
        assert_eq!(proved_room, plain_room, "both leave one room");
    }
    numbers
}

/// A text of the greatest length, and one of a byte more: good lines, and zeros after them, which nobody looks at and which so take no memory.
pub fn longest_texts(random: &mut Random) -> Numbers {
    let mut numbers = Numbers::new();
    let words = circuit(random);
    let lines = texts::text(&words);
    let mut text = vec![0; LONGEST_TEXT + 1];
    text[..lines.len()].copy_from_slice(&lines);
    let needed = words.len();
    let too_long = answer(19, LONGEST_TEXT);
    for (length, room, right) in [
        (LONGEST_TEXT, needed, answer(0, needed)),
        (LONGEST_TEXT, needed - 1, answer(27, needed)),
        (LONGEST_TEXT + 1, needed, too_long),
        (LONGEST_TEXT + 1, needed - 1, too_long),
    ] {
        let (mut proved_room, mut plain_room) = (vec![7; room], vec![7; room]);
        let proved = proved::read_circuit(&text[..length], &mut proved_room);
        same(&mut numbers, proved, aiger::read(&text[..length], &mut plain_room));
        assert_eq!(proved, right, "the length decides");
        assert_eq!(proved_room, plain_room, "both leave one room");
    }
    numbers
}

pub fn writings(random: &mut Random) -> Numbers {
    let mut numbers = Numbers::new();
    for _ in 0..CIRCUITS {
        let mut words = circuit(random);
        let room = room(random, texts::text(&words).len(), 7);
        if random.one_in(2) {
            let most = random.pick(&[5, 100, 3_000]);
            words = damaged(random, &words, |random| random.below(most) as u32);
        }
        let (mut proved_room, mut plain_room) = (room.clone(), room);
        let proved = proved::write_circuit(&words, &mut proved_room);
        same(&mut numbers, proved, aiger::write(&words, &mut plain_room));
        assert_eq!(proved_room, plain_room, "both leave one room");
    }
    numbers
}
