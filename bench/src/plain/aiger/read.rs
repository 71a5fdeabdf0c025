//! The reader: answers 19 and 27.

use super::{HEADER, MOST, MOST_WORDS};
use crate::plain::{answer, Answer};

const LARGEST_NUMBER: u32 = 2_147_483_647;
pub const LONGEST_TEXT: usize = 2_147_483_647;

/// Where M stands, which is judged after the sizes.
const WIDTH_AT: usize = 4;

/// The words go to a table first: a room keeps its words where the text is refused.
pub fn read(text: &[u8], room: &mut [u32]) -> Answer {
    let mut words = [0; MOST_WORDS];
    let needed = match (Scanner { text, at: 0 }).circuit(&mut words) {
        Ok(needed) => needed,
        Err(place) => return answer(19, place),
    };
    if text.len() > LONGEST_TEXT {
        return answer(19, LONGEST_TEXT);
    }
    let Some(room) = room.get_mut(..needed) else {
        return answer(27, needed);
    };
    room.copy_from_slice(&words[..needed]);
    answer(0, needed)
}

fn parts(byte: u8) -> bool {
    byte == b' ' || byte == b'\n'
}

/// A text as far as it was read. The error of each function is the fault's place.
struct Scanner<'a> {
    text: &'a [u8],
    at: usize,
}

impl Scanner<'_> {
    fn mark(&mut self, due: u8) -> Result<(), usize> {
        if self.text.get(self.at) != Some(&due) {
            return Err(self.at);
        }
        self.at += 1;
        Ok(())
    }

    // The compiler takes it for too long to put in each place; a call for each number costs a tenth.
    #[inline(always)]
    fn number(&mut self, most: u32) -> Result<u32, usize> {
        let from = self.at;
        let mut at = from;
        let mut number = 0_u64;
        while let Some(&byte) = self.text.get(at) {
            let digit = byte.wrapping_sub(b'0');
            if digit > 9 {
                if !parts(byte) {
                    return Err(from);
                }
                break;
            }
            number = number.wrapping_mul(10).wrapping_add(digit.into());
            at += 1;
        }
        let length = at - from;
        let zeros = length > 1 && self.text[from] == b'0';
        // Ten digits do not overflow, and a number of more is too large whatever it came to.
        if length == 0 || length > 10 || zeros || number > most.into() {
            return Err(from);
        }
        self.at = at;
        Ok(number as u32)
    }

    fn exactly(&mut self, wanted: u32) -> Result<(), usize> {
        let from = self.at;
        if self.number(wanted)? != wanted {
            return Err(from);
        }
        Ok(())
    }

    /// `aag M I L O A`; answers the sizes in the words' order.
    fn header(&mut self) -> Result<[u32; HEADER], usize> {
        if !self.text.starts_with(b"aag") || self.text.get(3).is_some_and(|&byte| !parts(byte)) {
            return Err(0);
        }
        self.at = 3;
        self.mark(b' ')?;
        let width = self.number(LARGEST_NUMBER)?;
        let mut sizes = [0; HEADER];
        for at in [0, 1, 3, 2] {
            self.mark(b' ')?;
            sizes[at] = self.number(MOST[at])?;
        }
        let [inputs, latches, gates, _] = sizes;
        if width != inputs + latches + gates {
            return Err(WIDTH_AT);
        }
        self.mark(b'\n')?;
        Ok(sizes)
    }

    /// Answers how many words there are.
    fn circuit(&mut self, words: &mut [u32; MOST_WORDS]) -> Result<usize, usize> {
        let sizes = self.header()?;
        let [inputs, latches, gates, outputs] = sizes.map(|size| size as usize);
        words[..HEADER].copy_from_slice(&sizes);
        let (latch_words, rest) = words[HEADER..].split_at_mut(2 * latches);
        let (gate_words, output_words) = rest.split_at_mut(2 * gates);
        let most = 2 * (inputs + latches + gates) as u32 + 1;
        let mut own = 2;
        for _ in 0..inputs {
            self.exactly(own)?;
            self.mark(b'\n')?;
            own += 2;
        }
        for latch in latch_words.as_chunks_mut().0 {
            *latch = self.latch(own, most)?;
            own += 2;
        }
        for output in &mut output_words[..outputs] {
            *output = self.number(most)?;
            self.mark(b'\n')?;
        }
        for gate in gate_words.as_chunks_mut().0 {
            *gate = self.gate(own)?;
            own += 2;
        }
        Ok(HEADER + 2 * (latches + gates) + outputs)
    }

    fn latch(&mut self, own: u32, most: u32) -> Result<[u32; 2], usize> {
        self.exactly(own)?;
        self.mark(b' ')?;
        let next = self.number(most)?;
        if self.text.get(self.at) == Some(&b'\n') {
            self.at += 1;
            return Ok([next, 0]);
        }
        self.mark(b' ')?;
        let from = self.at;
        let reset = self.number(own)?;
        if reset > 1 && reset != own {
            return Err(from);
        }
        self.mark(b'\n')?;
        Ok([next, reset.min(2)])
    }

    fn gate(&mut self, own: u32) -> Result<[u32; 2], usize> {
        self.exactly(own)?;
        self.mark(b' ')?;
        let left = self.number(own - 1)?;
        self.mark(b' ')?;
        let right = self.number(own - 1)?;
        self.mark(b'\n')?;
        Ok([left, right])
    }
}
