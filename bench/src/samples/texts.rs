//! Circuits as the words that are written as AIGER text, and their texts.

use crate::plain::aiger::{read, write, MOST, MOST_WORDS};
use crate::random::Random;

/// What yosys makes of two meters, with its symbols and comment.
const METERS: [&[u8]; 2] =
    [include_bytes!("../../../examples/rolls_over.aag"), include_bytes!("../../../examples/stays.aag")];

/// The bytes of the symbols and of the comment.
const AFTER: usize = 100_000;

/// A circuit with these I, L, A, O: any literals, and resets of all three kinds.
pub fn circuit(random: &mut Random, sizes: [usize; 4]) -> Vec<u32> {
    let [inputs, latches, gates, outputs] = sizes;
    let first = 1 + inputs + latches;
    let literals = 2 * (first + gates);
    let mut words = sizes.map(|size| size as u32).to_vec();
    for _ in 0..latches {
        words.extend([random.below(literals) as u32, random.below(3) as u32]);
    }
    for own in first..first + gates {
        words.extend([random.below(2 * own) as u32, random.below(2 * own) as u32]);
    }
    words.extend((0..outputs).map(|_| random.below(literals) as u32));
    words
}

/// So many circuits with every size at its limit.
pub fn circuits(seed: u64, count: usize) -> Vec<Vec<u32>> {
    let random = &mut Random::new(seed);
    (0..count).map(|_| circuit(random, MOST.map(|size| size as usize))).collect()
}

/// The text of a good circuit.
pub fn text(words: &[u32]) -> Vec<u8> {
    let mut text = vec![0; write(words, &mut []).place];
    write(words, &mut text);
    text
}

/// The text, and after it a name for each input, latch and output, and a comment.
pub fn with_symbols(text: &[u8]) -> Vec<u8> {
    let mut text = text.to_vec();
    let length = text.len() + AFTER;
    for (kind, count) in [('i', MOST[0]), ('l', MOST[1]), ('o', MOST[3])] {
        for number in 0..count {
            text.extend(format!("{kind}{number} a_name_for_{kind}[{number}]\n").bytes());
        }
    }
    text.extend(b"c\n");
    text.resize(length - 1, b'.');
    text.push(b'\n');
    text
}

/// So many texts of the two meters by turns.
pub fn meters(count: usize) -> Vec<Vec<u8>> {
    METERS.into_iter().cycle().take(count).map(<[u8]>::to_vec).collect()
}

/// The words of a good text.
pub fn words(text: &[u8]) -> Vec<u32> {
    let mut words = vec![0; MOST_WORDS];
    let length = read(text, &mut words).place;
    words.truncate(length);
    words
}
