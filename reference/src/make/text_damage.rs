//! Damage to AIGER texts: to their bytes, their numbers, their lines and what parts them.

use crate::aiger::{text_of, Sizes};
use crate::random::Random;
use std::ops::Range;

/// What bytes are replaced by, and what is put between them.
pub const BYTES: [u8; 16] = *b" \n\t\r012359-+a.\0\xff";

/// Words that are no number, or one that is out of range at most places.
pub const ODD: [&str; 20] = [
    "",
    "00",
    "01",
    "+1",
    "-1",
    "1x",
    "1\t",
    "1\r",
    "0",
    "1",
    "2",
    "64",
    "65",
    "1024",
    "1025",
    "2147483647",
    "2147483648",
    "4294967297",
    "18446744073709551617",
    "99999999999999999999999999",
];

/// Where the words of a text stand.
pub fn places(text: &[u8]) -> Vec<Range<usize>> {
    let mut places = Vec::new();
    let mut from = 0;
    for part in text.split(|byte| b" \n".contains(byte)) {
        if !part.is_empty() {
            places.push(from..from + part.len());
        }
        from += part.len() + 1;
    }
    places
}

/// The text with another word at one place.
pub fn with_word(text: &[u8], place: Range<usize>, word: &str) -> Vec<u8> {
    [&text[..place.start], word.as_bytes(), &text[place.end..]].concat()
}

/// Words near the number that stands there: some right by its value, none of these in form; the others beside it.
pub fn near(word: &[u8]) -> Vec<String> {
    let word = String::from_utf8_lossy(word).to_string();
    let mut near: Vec<String> = ["0", "00", "+", "-"].iter().map(|sign| format!("{sign}{word}")).collect();
    near.push(format!("{word}0"));
    if let Ok(number) = word.parse::<u128>() {
        near.extend([number + 1, number + 2, number.saturating_sub(1), number / 2].map(|n| n.to_string()));
        near.extend([number + (1 << 31), number + (1 << 32), number + (1 << 64)].map(|n| n.to_string()));
    }
    near
}

fn change_number(random: &mut Random, text: &[u8], from: &[Range<usize>]) -> Vec<u8> {
    let place = from[random.below(from.len())].clone();
    let near = near(&text[place.clone()]);
    let any = places(text);
    match random.below(4) {
        0 => with_word(text, place, random.pick(&ODD)),
        // A number from elsewhere in the text is often in range, and often not.
        1 => {
            let other = String::from_utf8_lossy(&text[any[random.below(any.len())].clone()]).to_string();
            with_word(text, place, &other)
        }
        _ => with_word(text, place, &near[random.below(near.len())]),
    }
}

fn change_byte(random: &mut Random, text: &mut Vec<u8>) {
    let at = random.below(text.len());
    match random.below(4) {
        0 => text[at] = random.pick(&BYTES),
        1 => {
            text.remove(at);
        }
        2 => text.insert(at, random.pick(&BYTES)),
        _ => text.truncate(at),
    }
}

/// Puts other bytes in the place of one space or one newline.
fn change_gap(random: &mut Random, text: &[u8]) -> Vec<u8> {
    let kind = random.pick(b" \n");
    let gaps: Vec<usize> = (0..text.len()).filter(|&at| text[at] == kind).collect();
    if gaps.is_empty() {
        return text.to_vec();
    }
    let at = gaps[random.below(gaps.len())];
    let others = ["", " ", "\n", "  ", " \n", "\n ", "\n\n", "\r\n", "\t", " 0\n", " 1\n", "\n0\n"];
    with_word(text, at..at + 1, random.pick(&others))
}

fn change_lines(random: &mut Random, text: &[u8]) -> Vec<u8> {
    let mut lines: Vec<&[u8]> = text.split_inclusive(|&byte| byte == b'\n').collect();
    let at = random.below(lines.len());
    match random.below(4) {
        0 => {
            lines.remove(at);
        }
        1 => lines.insert(at, lines[at]),
        2 => lines.insert(at, b"\n"),
        _ => {
            let other = random.below(lines.len());
            lines.swap(at, other);
        }
    }
    lines.concat()
}

/// One change to a text.
pub fn damage(random: &mut Random, text: &mut Vec<u8>) {
    let places = places(text);
    if places.len() < 2 {
        text.push(random.pick(&BYTES));
        return;
    }
    *text = match random.below(10) {
        0..=2 => return change_byte(random, text),
        3 => change_lines(random, text),
        4 | 5 => change_gap(random, text),
        6 | 7 => change_number(random, text, &places[1..places.len().min(6)]),
        _ => change_number(random, text, &places[1..]),
    };
}

/// What may stand after the last line.
pub const AFTER: [&[u8]; 10] = [
    b"",
    b"i0 tick\n",
    b"l0 hours[0]\no0 lamp\nc\nby hand\n",
    b"\n",
    b" ",
    b"c",
    b"0",
    b"aag 0 0 0 0 0\n",
    b"\t\r\0\xff",
    b"99999999999999999999 x",
];

/// Another text of the same circuit: resets of 0 written out, and something after the last line.
pub fn other_text(random: &mut Random, words: &[u32]) -> Vec<u8> {
    let sizes = Sizes::new(words);
    let latches = 1 + sizes.inputs..1 + sizes.inputs + sizes.latches;
    let mut text = Vec::new();
    for (number, line) in text_of(words).split_inclusive(|&byte| byte == b'\n').enumerate() {
        text.extend(line);
        let without_reset = line.iter().filter(|&&byte| byte == b' ').count() == 1;
        if latches.contains(&number) && without_reset && random.one_in(2) {
            text.pop();
            text.extend(b" 0\n");
        }
    }
    text.extend(random.pick(&AFTER));
    text
}
