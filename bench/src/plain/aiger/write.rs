//! The writer: answers 1 to 4 and 27.

use super::{HEADER, MOST};
use crate::plain::{answer, Answer};

pub fn write(words: &[u32], room: &mut [u8]) -> Answer {
    let circuit = match checked(words) {
        Ok(circuit) => circuit,
        Err(refused) => return refused,
    };
    let needed = circuit.length();
    let Some(out) = room.get_mut(..needed) else {
        return answer(27, needed);
    };
    Writer { out, at: 0 }.circuit(&circuit);
    answer(0, needed)
}

struct Circuit<'a> {
    inputs: usize,
    /// Next literal and reset.
    latches: &'a [[u32; 2]],
    gates: &'a [[u32; 2]],
    outputs: &'a [u32],
}

impl Circuit<'_> {
    /// W, the number of circuit variables.
    fn width(&self) -> usize {
        self.inputs + self.latches.len() + self.gates.len()
    }

    /// The literals of the latches and of the gates.
    fn latch_literals(&self) -> impl Iterator<Item = u32> {
        (2 * self.inputs as u32 + 2..).step_by(2)
    }

    fn gate_literals(&self) -> impl Iterator<Item = u32> {
        (2 * (self.inputs + self.latches.len()) as u32 + 2..).step_by(2)
    }

    /// The bytes of the text: each number and the byte after it.
    fn length(&self) -> usize {
        let width = self.width() as u32;
        let sizes = [self.inputs, self.latches.len(), self.outputs.len(), self.gates.len()];
        let sizes: usize = sizes.into_iter().map(|size| bytes(size as u32)).sum();
        let literals: usize = (1..=width).map(|variable| bytes(2 * variable)).sum();
        let latches = self.latches.iter().zip(self.latch_literals());
        let latches: usize =
            latches.map(|(&[next, reset], own)| bytes(next) + [0, 2, bytes(own)][reset as usize]).sum();
        let gates: usize = self.gates.as_flattened().iter().copied().map(bytes).sum();
        let outputs: usize = self.outputs.iter().copied().map(bytes).sum();
        "aag ".len() + bytes(width) + sizes + literals + latches + gates + outputs
    }
}

/// In the fixed order: 4 words, limits, length, then every word in order.
fn checked(words: &[u32]) -> Result<Circuit<'_>, Answer> {
    let Some((&header, rest)) = words.split_first_chunk::<HEADER>() else {
        return Err(answer(1, words.len()));
    };
    if let Some(place) = (0..HEADER).find(|&at| header[at] > MOST[at]) {
        return Err(answer(2, place));
    }
    let [inputs, latches, gates, outputs] = header.map(|word| word as usize);
    if rest.len() != 2 * latches + 2 * gates + outputs {
        return Err(answer(1, words.len()));
    }
    let (latch_words, rest) = rest.split_at(2 * latches);
    let (gate_words, outputs) = rest.split_at(2 * gates);
    let circuit =
        Circuit { inputs, latches: latch_words.as_chunks().0, gates: gate_words.as_chunks().0, outputs };
    check_words(&circuit)?;
    Ok(circuit)
}

fn check_words(circuit: &Circuit) -> Result<(), Answer> {
    let most = 2 * circuit.width() as u32 + 1;
    for (i, &[next, reset]) in circuit.latches.iter().enumerate() {
        let at = HEADER + 2 * i;
        if next > most {
            return Err(answer(4, at));
        }
        if reset > 2 {
            return Err(answer(3, at + 1));
        }
    }
    let from = HEADER + 2 * circuit.latches.len();
    for ((j, &[left, right]), own) in circuit.gates.iter().enumerate().zip(circuit.gate_literals()) {
        if left >= own || right >= own {
            return Err(answer(4, from + 2 * j + usize::from(left < own)));
        }
    }
    let from = from + 2 * circuit.gates.len();
    match circuit.outputs.iter().position(|&output| output > most) {
        Some(place) => Err(answer(4, from + place)),
        None => Ok(()),
    }
}

/// A number's digits; no number of a circuit has more than four.
fn digits(number: u32) -> usize {
    1 + usize::from(number > 9) + usize::from(number > 99) + usize::from(number > 999)
}

/// A number's digits and the byte after them.
fn bytes(number: u32) -> usize {
    digits(number) + 1
}

struct Writer<'a> {
    out: &'a mut [u8],
    at: usize,
}

impl Writer<'_> {
    fn number(&mut self, number: u32, after: u8) {
        let out = &mut self.out[self.at..][..bytes(number)];
        self.at += out.len();
        let [digits @ .., last] = out else { return };
        *last = after;
        let mut rest = number;
        for digit in digits.iter_mut().rev() {
            *digit = b'0' + (rest % 10) as u8;
            rest /= 10;
        }
    }

    fn circuit(&mut self, circuit: &Circuit) {
        self.out[..4].copy_from_slice(b"aag ");
        self.at = 4;
        self.number(circuit.width() as u32, b' ');
        self.number(circuit.inputs as u32, b' ');
        self.number(circuit.latches.len() as u32, b' ');
        self.number(circuit.outputs.len() as u32, b' ');
        self.number(circuit.gates.len() as u32, b'\n');
        for variable in 1..=circuit.inputs as u32 {
            self.number(2 * variable, b'\n');
        }
        for (&[next, reset], own) in circuit.latches.iter().zip(circuit.latch_literals()) {
            self.number(own, b' ');
            self.number(next, if reset == 0 { b'\n' } else { b' ' });
            if reset != 0 {
                self.number(if reset == 1 { 1 } else { own }, b'\n');
            }
        }
        for &output in circuit.outputs {
            self.number(output, b'\n');
        }
        for (&[left, right], own) in circuit.gates.iter().zip(circuit.gate_literals()) {
            self.number(own, b' ');
            self.number(left, b' ');
            self.number(right, b'\n');
        }
    }
}
