//! The AIGER reader and writer on themselves: each against the other, and faults whose place is known.

use super::Tally;
use crate::aiger::{read, text_of, write, MOST};
use crate::answers;
use crate::make::circuits::subject;
use crate::make::text_damage::{damage, other_text, places, with_word};
use crate::make::{self, largest};
use crate::problem::{refused, yes, Answer};
use crate::random::Random;
use std::collections::BTreeSet;

/// More than any circuit and any text of one needs.
const ROOM: usize = 40_000;

fn read_words(text: &[u8]) -> Result<Vec<u32>, Answer> {
    let mut room = vec![7; ROOM];
    let answer = read(text, &mut room);
    room.truncate(answer.place);
    if answer.number == 0 {
        Ok(room)
    } else {
        Err(answer)
    }
}

fn written(words: &[u32]) -> Result<Vec<u8>, Answer> {
    let mut room = vec![7; ROOM];
    let answer = write(words, &mut room);
    room.truncate(answer.place);
    if answer.number == 0 {
        Ok(room)
    } else {
        Err(answer)
    }
}

fn shown(text: &[u8]) -> String {
    text.escape_ascii().to_string()
}

/// Texts and their words.
const GOOD: [(&str, &[u32]); 5] = [
    ("aag 0 0 0 0 0\n", &[0, 0, 0, 0]),
    ("aag 1 0 1 1 0\n2 3\n2\n", &[0, 1, 0, 1, 3, 0, 2]),
    ("aag 1 0 1 1 0\n2 3 0\n2\nl0 lamp\nc\n", &[0, 1, 0, 1, 3, 0, 2]),
    ("aag 5 1 3 2 1\n2\n4 10\n6 7 1\n8 3 8\n11\n0\n10 9 2\n", &[1, 3, 1, 2, 10, 0, 7, 1, 3, 2, 9, 2, 11, 0]),
    (
        "aag 6 0 2 1 4\n2 3\n4 11\n12\n6 2 5\n8 3 4\n10 7 9\n12 2 4\n",
        &[0, 2, 4, 1, 3, 0, 11, 0, 2, 5, 3, 4, 7, 9, 2, 4, 12],
    ),
];

/// Texts and the place of their fault.
const FAULTS: [(&str, usize); 16] = [
    ("aag 3 99", 6),
    ("aag 3 1", 7),
    ("", 0),
    ("aa", 0),
    ("aag 0 0 0 0 0", 13),
    ("aag  0 0 0 0 0\n", 4),
    ("aag 9 65 0 0 0\n", 6),
    ("aag 9 1 0 0 0", 4),
    ("aag 9 1 0 0 00\n", 12),
    ("aag 01 65 0 0 0\n", 4),
    ("aag 2147483648 65 0 0 0\n", 4),
    ("aag 2147483647 65 0 0 0\n", 15),
    ("aag 1 0 1 0 0 1\n2 3\n2\n", 13),
    ("aig 1 0 1 0 0\n", 0),
    ("aag 1 0 1 0 0\n2 3 3\n", 18),
    ("aag 1 0 1 0 0\n2 3\t\n", 16),
];

fn examples(tally: &mut Tally) {
    for (text, words) in GOOD {
        let found = read_words(text.as_bytes());
        tally.expect(found.as_deref() == Ok(words), || format!("{text}: {found:?}"));
    }
    for (text, place) in FAULTS {
        let found = read_words(text.as_bytes());
        tally.expect(found == Err(refused(19, place)), || format!("{text}: {found:?}"));
    }
}

/// One word of a good text broken, one space or newline twice or not there, the text cut: the place is known.
fn known_places(tally: &mut Tally, text: &[u8]) {
    let mut expect = |text: &[u8], place: usize| {
        let found = read_words(text);
        tally.expect(found == Err(refused(19, place)), || format!("{}: {found:?}, not {place}", shown(text)));
    };
    for place in places(text) {
        let (start, end) = (place.start, place.end);
        expect(&with_word(text, place, "x"), start);
        expect(&with_word(text, end..end + 1, "\t"), start);
        expect(&text[..end], end);
        if end + 1 < text.len() {
            expect(&text[..end + 1], end + 1);
            let twice = [&text[..=end], &text[end..]].concat();
            expect(&twice, end + 1);
        }
    }
}

/// The numbers of one line, taken without care for how they are written.
fn numbers(line: &[u8]) -> Option<Vec<u32>> {
    let words = std::str::from_utf8(line).ok()?.split_whitespace();
    words.map(|word| word.parse().ok()).collect()
}

/// The words of a text by another way: its numbers, written, must give its lines again but for resets of 0.
fn by_writing(text: &[u8]) -> Option<Vec<u32>> {
    let lines: Vec<&[u8]> = text.split_inclusive(|&byte| byte == b'\n').collect();
    let &[_, inputs, latches, outputs, gates] = &numbers(lines.first()?.get(3..)?)?[..] else {
        return None;
    };
    let mut words = vec![inputs, latches, gates, outputs];
    if words.iter().zip(MOST).any(|(&size, most)| size > most) {
        return None;
    }
    let [inputs, latches, outputs, gates] = [inputs, latches, outputs, gates].map(|size| size as usize);
    let lines = lines.get(..=inputs + latches + outputs + gates)?;
    let (others, gates) = lines.split_at(1 + inputs + latches + outputs);
    let (others, outputs) = others.split_at(1 + inputs + latches);
    let (others, latches) = others.split_at(1 + inputs);
    let mut normal = others.concat();
    for line in latches {
        let read = numbers(line)?;
        let reset = read.get(2).copied().unwrap_or(0);
        words.extend([*read.get(1)?, reset.min(2)]);
        let zero = read.len() == 3 && reset == 0;
        normal.extend(if zero { [line.strip_suffix(b" 0\n")?, b"\n"].concat() } else { line.to_vec() });
    }
    for line in gates {
        words.extend(numbers(line)?.get(1..3)?);
    }
    for line in outputs {
        words.extend(numbers(line)?.first());
    }
    normal.extend([outputs.concat(), gates.concat()].concat());
    (written(&words) == Ok(normal)).then_some(words)
}

/// A text gets the words that the other way has; written, these give a text that reads alike and is written alike.
fn any_text(tally: &mut Tally, text: &[u8]) -> bool {
    let found = read_words(text);
    let other = by_writing(text);
    tally.expect(found.as_ref().ok() == other.as_ref(), || {
        format!("{}: {found:?}, otherwise {other:?}", shown(text))
    });
    let Ok(words) = found else {
        return false;
    };
    let again = written(&words);
    let normal = again.as_ref().is_ok_and(|again| {
        read_words(again).as_ref() == Ok(&words) && *again == text_of(&words) && again.len() <= text.len()
    });
    tally.expect(normal, || format!("{}: {words:?}, written {again:?}", shown(text)));
    true
}

/// A room that is one too small is told what is needed and stays; one that is larger keeps its end.
fn rooms(tally: &mut Tally, words: &[u32], text: &[u8]) {
    let (mut short, mut long) = (vec![7; words.len() - 1], vec![7; words.len() + 2]);
    let answers = (read(text, &mut short), read(text, &mut long));
    let kept = short.iter().chain(&long[words.len()..]).all(|&word| word == 7);
    let right = answers == (refused(27, words.len()), yes(words.len())) && long.starts_with(words);
    tally.expect(kept && right, || format!("{}: rooms {answers:?}", shown(text)));
    let (mut short, mut long) = (vec![7; text.len() - 1], vec![7; text.len() + 2]);
    let answers = (write(words, &mut short), write(words, &mut long));
    let kept = short.iter().chain(&long[text.len()..]).all(|&byte| byte == 7);
    let right = answers == (refused(27, text.len()), yes(text.len())) && long.starts_with(text);
    tally.expect(kept && right, || format!("{words:?}: rooms {answers:?}"));
}

/// The requests made from the seed lead to each answer often, and to faults at many places.
fn requests_reach(tally: &mut Tally, seed: u64) {
    let places = answers::tally(&make::requests(seed, "aiger", 200).expect("a kind"));
    for (&(call, answer, _), places) in &places {
        let times = places.len();
        tally.expect(times > 10, || format!("aiger: call {call} has the answer {answer} {times} times"));
    }
    let faults: BTreeSet<usize> = places[&(7, 19, None)].iter().copied().collect();
    tally.expect(faults.len() > 80, || format!("aiger: faults at {} places", faults.len()));
}

pub fn run(tally: &mut Tally, random: &mut Random, seed: u64) {
    examples(tally);
    requests_reach(tally, seed);
    let mut accepted = 0;
    let circuits = 2_000;
    for number in 0..circuits {
        let words = if number == 0 { largest() } else { subject(random, number) };
        let text = text_of(&words);
        rooms(tally, &words, &text);
        let back = written(&words).and_then(|text| read_words(&text));
        tally.expect(back.as_ref() == Ok(&words), || format!("{words:?}: read back {back:?}"));
        if number % 20 == 1 {
            known_places(tally, &text);
        }
        let other = other_text(random, &words);
        tally.expect(read_words(&other).as_ref() == Ok(&words), || shown(&other));
        for _ in 0..5 {
            let mut worse = other.clone();
            damage(random, &mut worse);
            accepted += usize::from(any_text(tally, &worse));
        }
    }
    let mixed = accepted > circuits / 2 && accepted < 3 * circuits;
    tally.expect(mixed, || format!("{accepted} of {} damaged texts are accepted", 5 * circuits));
}
