//! Requests of kind `texts`: AIGER texts with one fault at each place and two in the first line, every limit, the
//! longest buffers.

use super::circuits::*;
use super::text_damage::{near, places, with_word, AFTER, BYTES, ODD};
use super::text_limits;
use crate::random::Random;
use crate::requests::Request;

/// Texts with every sort of line: one latch without a reset, one that starts at 1, one that is free.
const WHOLE: [&[u8]; 3] = [
    b"aag 5 1 3 2 1\n2\n4 10\n6 7 1\n8 3 8\n11\n0\n10 9 2\n",
    b"aag 13 11 1 1 1\n2\n4\n6\n8\n10\n12\n14\n16\n18\n20\n22\n24 26 24\n27\n26 25 22\n",
    b"aag 0 0 0 0 0\n",
];

/// More room than any of them needs.
const ROOM: usize = 24;

/// Texts of other formats, and texts that are close to the smallest ones.
const TEXTS: [&[u8]; 45] = [
    b" ",
    b"\n",
    b"\0",
    b"aa",
    b"aa ",
    b"aagg 0 0 0 0 0\n",
    b"AAG 0 0 0 0 0\n",
    b"aig 0 0 0 0 0\n",
    b"aig 2 1 0 1 1\n4\n\x02\x02",
    b"\xef\xbb\xbfaag 0 0 0 0 0\n",
    b"\naag 0 0 0 0 0\n",
    b"aag\t0 0 0 0 0\n",
    b"aag 3 99",
    b"aag 3 1",
    b"aag 3\n",
    b"aag 0 0 0 0\n",
    b"aag 0 0 0 0 0 0\n",
    b"aag 1 0 1 0 0 1\n2 3\n2\n",
    b"aag 1 0 1 0 0 1 0\n2 3\n2\n",
    b"aag 1 0 1 0 0\n2 3\n2\n",
    b"aag 0 0 0 1 0\n0\n",
    b"aag 0 0 0 1 0\n1\n",
    b"aag 0 0 0 1 0\n2\n",
    b"aag 0 0 0 2 0\n1\n1",
    b"aag 1 1 0 0 0\n1\n",
    b"aag 1 1 0 0 0\n2",
    b"aag 1 1 0 0 0\n2 \n",
    b"aag 1 1 0 0 0\n2 2\n",
    b"aag 1 1 0 0 0\n 2\n",
    b"aag 1 1 0 0 0\n\n2\n",
    b"aag 1 1 0 0 0\n2\r\n",
    b"aag 1 1 0 0 0\n3\n",
    b"aag 2 2 0 0 0\n4\n2\n",
    b"aag 1 0 0 0 1\n2 0 0\n",
    b"aag 1 0 0 0 1\n2 1 2\n",
    b"aag 1 0 0 0 1\n2 2 0\n",
    b"aag 1 0 0 0 1\n2 2 2\n",
    b"aag 1 0 0 0 1\n3 0 1\n",
    b"aag 1 0 0 0 1\n2 0 1 1\n",
    b"aag 1 0 0 0 1\n2 1\n",
    b"aag 1 0 0 0 1\n2 1 0",
    b"aag 1 0 0 0 1\n2  1 0\n",
    b"aag 1 0 0 0 1\n2\t1 0\n",
    b"aag 2 0 0 0 2\n2 0 1\n4 4 2\n",
    b"aag 2 0 1 1 1\n2 5\n5\n4 3 3\n",
];

/// What may follow the next literal of the latch 4.
const RESETS: [&str; 22] = [
    "", "\n", " \n", " 0\n", " 1\n", " 2\n", " 3\n", " 4\n", " 5\n", " 6\n", " 00\n", " 01\n", " 04\n", " 0",
    " 4", "  0\n", " 0 \n", " 0 0\n", " -1\n", " x\n", "\t0\n", " 0\r\n",
];

fn every_byte(text: &[u8], out: &mut Vec<Request>) {
    for at in 0..=text.len() {
        let (before, after) = text.split_at(at);
        out.push(read(before, ROOM));
        for byte in BYTES {
            out.push(read(&[before, &[byte], after].concat(), ROOM));
        }
        if after.is_empty() {
            continue;
        }
        out.push(read(&[before, &after[1..]].concat(), ROOM));
        for byte in BYTES {
            out.push(read(&[before, &[byte], &after[1..]].concat(), ROOM));
        }
    }
}

/// Every word replaced by those near it, by odd ones and by every other.
fn every_word(text: &[u8], out: &mut Vec<Request>) {
    let places = places(text);
    let others = places.iter().map(|place| String::from_utf8_lossy(&text[place.clone()]).to_string());
    let others: Vec<String> = others.chain(ODD.map(String::from)).collect();
    for place in &places {
        for word in near(&text[place.clone()]).iter().chain(&others) {
            out.push(read(&with_word(text, place.clone(), word), ROOM));
        }
    }
}

fn every_line(text: &[u8], out: &mut Vec<Request>) {
    let lines: Vec<&[u8]> = text.split_inclusive(|&byte| byte == b'\n').collect();
    for at in 0..lines.len() {
        let mut twice = lines.clone();
        twice.insert(at, lines[at]);
        let mut without = lines.clone();
        without.remove(at);
        let mut empty = lines.clone();
        empty.insert(at, b"\n");
        let mut swapped = lines.clone();
        swapped.swap(at, (at + 1) % lines.len());
        out.extend([twice, without, empty, swapped].map(|lines| read(&lines.concat(), ROOM)));
    }
}

/// Two of the five numbers of a first line odd, and one odd with each way to go on: which fault is the first.
fn first_lines(out: &mut Vec<Request>) {
    let good = ["2", "1", "1", "1", "0"];
    let ends = ["\n2\n4 5\n1\n", "", " ", "\n", " \n", "\r\n", " 0\n"];
    let mut put = |numbers: [&str; 5], end: &str| {
        out.push(read(format!("aag {}{end}", numbers.join(" ")).as_bytes(), ROOM));
    };
    for first in 0..5 {
        for odd in ODD {
            let mut numbers = good;
            numbers[first] = odd;
            for end in ends {
                put(numbers, end);
            }
            for second in first + 1..5 {
                for odd in ODD {
                    let mut numbers = numbers;
                    numbers[second] = odd;
                    put(numbers, ends[0]);
                }
            }
        }
    }
}

pub fn requests(random: &mut Random, count: usize) -> Vec<Request> {
    let mut out = Vec::new();
    for text in WHOLE {
        every_byte(text, &mut out);
        every_word(text, &mut out);
        every_line(text, &mut out);
        for after in AFTER {
            out.push(read(&[text, after].concat(), ROOM));
        }
        out.extend(every_room(words_needed(text)).map(|room| read(text, room)));
    }
    out.extend(TEXTS.map(|text| read(text, ROOM)));
    out.extend(TEXTS.map(|text| read(text, 0)));
    out.extend(RESETS.map(|reset| read(format!("aag 3 1 2 0 0\n2\n4 7{reset}6 6\n").as_bytes(), ROOM)));
    first_lines(&mut out);
    for _ in 0..count {
        text_limits::requests(random, &mut out);
    }
    out
}
