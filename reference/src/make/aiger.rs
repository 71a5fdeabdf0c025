//! Requests of kind `aiger`: random circuits written and read, their texts and words damaged, rooms of every sort.

use super::circuits::*;
use super::text_damage::{self, other_text};
use crate::aiger::text_of;
use crate::random::Random;
use crate::requests::Request;

/// A text of the circuit that is damaged once or twice.
fn damaged_text(random: &mut Random, words: &[u32]) -> Vec<u8> {
    let mut text = if random.one_in(2) { text_of(words) } else { other_text(random, words) };
    for _ in 0..random.pick(&[1, 1, 1, 2]) {
        text_damage::damage(random, &mut text);
    }
    text
}

fn damaged_words(random: &mut Random, words: &[u32]) -> Vec<u32> {
    let mut worse = words.to_vec();
    for _ in 0..random.pick(&[1, 1, 1, 2]) {
        if worse.len() >= 4 {
            damage(random, &mut worse);
        }
    }
    worse
}

pub fn requests(random: &mut Random, count: usize) -> Vec<Request> {
    let mut out = Vec::new();
    for number in 0..count {
        let words = subject(random, number);
        let text = text_of(&words);
        out.push(write(&words, text.len() + random.pick(&[0, 0, 1, 9])));
        out.push(read(&text, words.len() + random.pick(&[0, 0, 1, 9])));
        let (texts, worse) = if is_long(&words) { (1, 1) } else { (8, 4) };
        let other = other_text(random, &words);
        out.push(read_somehow(random, &other));
        out.push(read(&other, random.pick(&every_room(words.len())[..2])));
        out.push(write(&words, random.pick(&every_room(text.len())[..2])));
        for _ in 0..texts {
            let text = damaged_text(random, &words);
            out.push(read_somehow(random, &text));
        }
        for _ in 0..worse {
            let words = damaged_words(random, &words);
            out.push(write_somehow(random, &words));
        }
    }
    out
}
