//! Calls 7 and 8 at each limit and one past it, for the kind `texts`.

use super::circuits::*;
use super::text_damage::places;
use crate::aiger::{guard, text_of, Sizes, MOST};
use crate::random::Random;
use crate::requests::{Request, CIRCUIT_WORDS, TEXT_BYTES};

/// A circuit at all limits with every literal as large as it may be, and every reset.
pub fn largest() -> Vec<u32> {
    let sizes = Sizes::new(&MOST);
    let mut words = MOST.to_vec();
    for place in 4..sizes.length() {
        let (number, most) = guard(&sizes, place);
        words.push(if number == 3 { place as u32 / 2 % 3 } else { most as u32 });
    }
    words
}

fn both_ways(words: &[u32], out: &mut Vec<Request>) {
    let text = text_of(words);
    out.push(write(words, text.len()));
    out.push(read(&text, words.len()));
}

/// Each size at its limit and one past it, alone and with M wrong; the lines fit.
fn each_size(random: &mut Random, out: &mut Vec<Request>) {
    for place in 0..4 {
        for past in [0, 1] {
            let mut head = [1, 1, 1, 1];
            head[place] = MOST[place] as usize + past;
            let words = circuit(random, head);
            both_ways(&words, out);
            let mut text = text_of(&words);
            let m = places(&text)[1].clone();
            text.splice(m, *b"9");
            out.push(read(&text, words.len()));
        }
        // Two sizes past their limits: the first of the words decides.
        for second in 0..4 {
            let mut words = circuit(random, [1, 1, 1, 1]);
            words[place] = MOST[place] + 1;
            words[second] = MOST[second] + 1;
            out.push(write(&words, 200));
        }
    }
}

/// Each word of small circuits set to what is just allowed, just not, and the largest; as text too.
fn each_word(random: &mut Random, out: &mut Vec<Request>) {
    for head in [[2, 2, 3, 2], [0, 1, 0, 1], [0, 0, 2, 1], [0, 0, 0, 0]] {
        let good = circuit(random, head);
        for place in 0..good.len() {
            for value in replacements(&good, place) {
                let mut words = good.clone();
                words[place] = value;
                out.push(write(&words, 200));
                if place >= 4 {
                    out.push(read(&text_of(&words), good.len()));
                }
                // A second wrong word: the first one decides.
                let second = random.below(good.len());
                words[second] = u32::MAX;
                out.push(write(&words, 200));
            }
        }
        for length in 0..=good.len() + 1 {
            let mut words = good.clone();
            words.resize(length, 0);
            out.push(write(&words, 200));
        }
        let (words, bytes) = (good.len(), bytes_needed(&good));
        out.extend(every_room(bytes).map(|room| write(&good, room)));
        out.extend(every_room(words).map(|room| read(&text_of(&good), room)));
    }
}

/// All limits at once, both ways, with rooms too small, exact and as long as they may be, and words just past their limits.
fn at_all_limits(random: &mut Random, out: &mut Vec<Request>) {
    let good = largest();
    let text = text_of(&good);
    out.extend(every_room(text.len()).map(|room| write(&good, room)));
    out.extend(every_room(good.len()).map(|room| read(&text, room)));
    out.push(read(&text, CIRCUIT_WORDS as usize));
    out.push(write(&good, TEXT_BYTES as usize));
    out.push(read(&text[..text.len() - 1], good.len()));
    for _ in 0..12 {
        let from = random.pick(&[0, 4, 132, 2180]);
        let place = random.between(from, good.len() - 1);
        let mut words = good.clone();
        words[place] = random.pick(&replacements(&good, place)[3..]);
        out.push(write(&words, 0));
        if place >= 4 {
            out.push(read(&text_of(&words), 0));
        }
    }
}

/// Texts and words as long as they may be: unread after the last line, one endless word, too many words.
fn full_buffers(out: &mut Vec<Request>) {
    let full = |start: &[u8], byte: u8| {
        let mut text = start.to_vec();
        text.resize(TEXT_BYTES as usize, byte);
        text
    };
    out.push(read(&full(b"aag 1 1 0 1 0\n2\n3\n", b'\n'), CIRCUIT_WORDS as usize));
    out.push(read(&full(b"aag 1 1 0 1 0\n2\n", b'3'), 5));
    out.push(read(&full(b"aag 1 1 0 1 ", b'0'), 5));
    let mut words = largest();
    words.resize(CIRCUIT_WORDS as usize, 0);
    out.push(write(&words, TEXT_BYTES as usize));
}

pub fn requests(random: &mut Random, out: &mut Vec<Request>) {
    each_size(random, out);
    each_word(random, out);
    at_all_limits(random, out);
    full_buffers(out);
}
