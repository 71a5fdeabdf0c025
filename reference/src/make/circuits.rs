//! Random circuits as words, the damage to them, and the requests that write and read them.

use super::bare::size;
use super::shapes;
use crate::aiger::{self, guard, Sizes, MOST};
use crate::random::Random;
use crate::requests::Request;

/// A circuit with these I, L, A, O; inside the limits its words are good.
pub fn circuit(random: &mut Random, head: [usize; 4]) -> Vec<u32> {
    let [inputs, latches, gates, outputs] = head;
    let mut words = head.map(|size| size as u32).to_vec();
    words.extend(&shapes::words(random, [inputs, latches, gates, 0, 0])[5..]);
    let any = 2 * (inputs + latches + gates) + 1;
    words.extend((0..outputs).map(|_| match random.one_in(5) {
        true => any as u32,
        false => random.between(0, any) as u32,
    }));
    words
}

/// Circuit `number` of a kind: mostly of a few words, at times with literals of two and three digits.
pub fn subject(random: &mut Random, number: usize) -> Vec<u32> {
    let most = match number % 200 {
        // The largest are few, since each is a long text.
        100 => MOST.map(|limit| limit as usize),
        _ if random.one_in(8) => [20, 20, 40, 20],
        _ => [3, 3, 4, 3],
    };
    let head = most.map(|most| random.between(0, most));
    circuit(random, head)
}

/// Whether texts of this circuit are too long for many requests.
pub fn is_long(words: &[u32]) -> bool {
    words.len() > 300
}

/// The values that word `place` is replaced by.
pub fn replacements(words: &[u32], place: usize) -> [u32; 5] {
    let most = match place {
        0..=3 => MOST[place],
        _ => guard(&Sizes::new(words), place).1 as u32,
    };
    [0, most.saturating_sub(1), most, most.wrapping_add(1), u32::MAX]
}

/// One change to words: to a size, to their number, or mostly to a word after the sizes.
pub fn damage(random: &mut Random, words: &mut Vec<u32>) {
    let (size, any) = (random.below(4), random.below(words.len()));
    match random.below(14) {
        0 => words.push(random.below(3) as u32),
        1 => {
            words.pop();
        }
        2 => words.truncate(any),
        3 => words.truncate(random.below(5)),
        4 => words[size] = random.pick(&replacements(words, size)),
        5 => words[size] = words[size].wrapping_add(random.pick(&[1, u32::MAX])),
        _ if words.len() > 4 => {
            let place = random.between(4, words.len() - 1);
            words[place] = random.pick(&replacements(words, place));
        }
        _ => words[size] = MOST[size] + 1,
    }
}

/// The words or bytes that a good text or good words need, told by a room of none; else some number.
pub fn words_needed(text: &[u8]) -> usize {
    let answer = aiger::read(text, &mut []);
    if answer.number == 27 {
        answer.place
    } else {
        9
    }
}

pub fn bytes_needed(words: &[u32]) -> usize {
    let answer = aiger::write(words, &mut []);
    if answer.number == 27 {
        answer.place
    } else {
        20
    }
}

pub fn read(text: &[u8], room: usize) -> Request {
    Request::ReadAiger { number: 0, text: text.to_vec(), room: room as u32 }
}

pub fn write(words: &[u32], room: usize) -> Request {
    Request::WriteAiger { number: 0, words: words.to_vec(), room: room as u32 }
}

/// Call 7 and call 8 with a room of any sort, and any number, which means nothing.
pub fn read_somehow(random: &mut Random, text: &[u8]) -> Request {
    let number = random.pick(&[0, 0, 0, 1, u32::MAX]);
    Request::ReadAiger { number, text: text.to_vec(), room: size(random, words_needed(text)) }
}

pub fn write_somehow(random: &mut Random, words: &[u32]) -> Request {
    let number = random.pick(&[0, 0, 0, 1, u32::MAX]);
    Request::WriteAiger { number, words: words.to_vec(), room: size(random, bytes_needed(words)) }
}

/// With no room, with one too few, with just enough, and with more.
pub fn every_room(needed: usize) -> [usize; 4] {
    [0, needed - 1, needed, needed + 3]
}
