//! Random well-formed problems of version 1.

use crate::finder::{open_bits, MOST_OPEN};
use crate::problem::{check, header, Parts, CHILDREN, FINALLY, GLOBALLY, MOST, NEXT};
use crate::random::Random;

/// The numbers I, L, A, N, k of a problem.
pub type Head = [usize; 5];

/// A literal of variables below `variable`: mostly one of the latest, at times a constant.
fn literal_below(random: &mut Random, variable: usize) -> u32 {
    let all = 2 * variable;
    if random.one_in(2) {
        random.below(all) as u32
    } else {
        (all - 1 - random.below(all.min(6))) as u32
    }
}

fn child(random: &mut Random, node: usize) -> u32 {
    if random.one_in(2) {
        node as u32 - 1
    } else {
        random.below(node) as u32
    }
}

fn node(random: &mut Random, width: usize, node: usize) -> [u32; 3] {
    let op = if node == 0 || random.one_in(4) { 0 } else { random.between(1, 7) };
    match CHILDREN[op] {
        0 => [0, random.below(2 * width + 2) as u32, 0],
        1 => [op as u32, child(random, node), 0],
        _ => [op as u32, child(random, node), child(random, node)],
    }
}

/// Random words with these numbers; inside the limits they are well formed.
pub fn words(random: &mut Random, head: Head) -> Vec<u32> {
    let [inputs, latches, gates, nodes, _] = head;
    let width = inputs + latches + gates;
    let mut words: Vec<u32> = head.iter().map(|&number| number as u32).collect();
    for latch in 0..latches {
        let own = 2 * (inputs + latch + 1) as u32;
        let next = if random.one_in(4) { own } else { literal_below(random, width + 1) };
        words.extend([next, random.below(3) as u32]);
    }
    for gate in 0..gates {
        let own = inputs + latches + gate + 1;
        words.extend([literal_below(random, own), literal_below(random, own)]);
    }
    for n in 0..nodes {
        words.extend(node(random, width, n));
    }
    words
}

/// A small problem whose witnesses have at most `bits` latch and input bytes.
pub fn small(random: &mut Random, bits: usize) -> Vec<u32> {
    loop {
        let latches = random.below(4);
        let inputs = random.below(3);
        let k = random.below(4);
        if latches + inputs * (k + 1) <= bits {
            let head = [inputs, latches, random.below(4), random.between(1, 6), k];
            return words(random, head);
        }
    }
}

/// A problem whose runs mostly close, under nested operators that look ahead: on its lassos
/// a goal may lie before the position that asks for it.
pub fn looping(random: &mut Random) -> Vec<u32> {
    let [inputs, k] = random.pick(&[[1, 1], [1, 2], [1, 3], [2, 1], [2, 2]]);
    let latches = random.below(2);
    let (atoms, others) = (random.between(1, 2), random.between(2, 5));
    let mut words = words(random, [inputs, latches, 0, 0, k]);
    words[3] = (atoms + others) as u32;
    let width = inputs + latches;
    for _ in 0..atoms {
        words.extend([0, random.between(2, 2 * width + 1) as u32, 0]);
    }
    for n in atoms..atoms + others {
        let op = random.pick(&[1, 2, 3, 3, 4, 4, 5, 5, 6, 6, 6, 7, 7, 7]);
        let second = if CHILDREN[op] == 2 { child(random, n) } else { 0 };
        words.extend([op as u32, child(random, n), second]);
    }
    words
}

/// Leaves just `free` of the latches free, and the others fixed.
fn free_latches(random: &mut Random, words: &mut [u32], mut free: usize) {
    let latches = words[1] as usize;
    for latch in 0..latches {
        let chosen = random.below(latches - latch) < free;
        free -= usize::from(chosen);
        words[6 + 2 * latch] = if chosen { 2 } else { random.below(2) as u32 };
    }
}

/// A problem with one of these sums, and some fixed latches beside the free ones.
pub fn with_sum(random: &mut Random, sums: &[usize]) -> Vec<u32> {
    let bits = random.pick(sums);
    // Each bit doubles the candidates, and each position lengthens all of them.
    let longest = if bits > MOST_OPEN { 31 } else { (8_192 >> bits).clamp(5, 33) - 2 };
    let most = random.between(0, longest);
    let k = random.between(0, most);
    let inputs = random.between(0, bits / (k + 1));
    let free = bits - inputs * (k + 1);
    let latches = free + random.pick(&[0, 1, 2, 3, 4, 20]);
    let head = [inputs, latches, random.below(6), random.between(1, 5), k];
    let mut words = words(random, head);
    free_latches(random, &mut words, free);
    words
}

/// Latches in a chain, where each takes the value of the one before it: a loop starts only some steps on.
pub fn chain(random: &mut Random) -> Vec<u32> {
    let latches = random.between(2, 7);
    let head = [0, latches, random.below(3), random.between(1, 4), random.between(latches, 12)];
    let mut words = words(random, head);
    let free = random.below(3);
    free_latches(random, &mut words, free);
    for latch in 0..latches {
        words[5 + 2 * latch] = 2 * latch.max(1) as u32;
    }
    words
}

/// Any sizes whose sum is past what is searched.
pub fn far_past(random: &mut Random) -> Vec<u32> {
    loop {
        let head =
            [random.below(65), random.below(65), random.below(4), random.between(1, 3), random.below(32)];
        let words = words(random, head);
        if open_bits(&check(1, &words).expect("made well formed")) > MOST_OPEN {
            return words;
        }
    }
}

/// Puts operators over the formula, the first of them innermost. Under G only a lasso shows it.
pub fn topped(random: &mut Random, mut words: Vec<u32>) -> Vec<u32> {
    let tops: [&[u32]; 8] = [
        &[],
        &[],
        &[],
        &[GLOBALLY],
        &[GLOBALLY, FINALLY],
        &[FINALLY, GLOBALLY],
        &[GLOBALLY, NEXT],
        &[NEXT, NEXT],
    ];
    for &op in random.pick(&tops) {
        words.extend([op, words[3] - 1, 0]);
        words[3] += 1;
    }
    words
}

/// The largest value that word `place` of well-formed words of a version may have.
pub fn most(version: u32, words: &[u32], place: usize) -> u32 {
    let header = header(version).expect("a known version");
    if place < header {
        return MOST[place];
    }
    Parts::new(header, words).guard(words, place).1.max(0) as u32
}
