//! Circuits in AIGER text: the reader (answers 19 and 27) and the writer (answers 1 to 4 and 27).

use crate::problem::{self, refused, yes, Answer};
use crate::text::{self, Text};

/// The largest I, L, A and O, in the order of the words.
pub const MOST: [u32; 4] = [problem::MOST[0], problem::MOST[1], problem::MOST[2], 64];

/// Where these sizes stand among the words, in the order I, L, O, A of the text's first line.
const HEADER: [usize; 4] = [0, 1, 3, 2];

/// I, L, A, O, and where each part of the words begins.
pub struct Sizes {
    pub inputs: usize,
    pub latches: usize,
    pub gates: usize,
    pub outputs: usize,
}

impl Sizes {
    pub fn new(words: &[u32]) -> Sizes {
        let [inputs, latches, gates, outputs] = [0, 1, 2, 3].map(|place| words[place] as usize);
        Sizes { inputs, latches, gates, outputs }
    }

    /// W, which M has to be.
    pub fn width(&self) -> usize {
        self.inputs + self.latches + self.gates
    }

    /// The literal of an input, a latch or a gate, each counted from 0.
    fn input(&self, number: usize) -> usize {
        2 * (number + 1)
    }

    pub fn latch(&self, number: usize) -> usize {
        self.input(self.inputs + number)
    }

    pub fn gate(&self, number: usize) -> usize {
        self.latch(self.latches + number)
    }

    fn gates_from(&self) -> usize {
        4 + 2 * self.latches
    }

    fn outputs_from(&self) -> usize {
        self.gates_from() + 2 * self.gates
    }

    pub fn length(&self) -> usize {
        self.outputs_from() + self.outputs
    }
}

fn first_line(text: &mut Text) -> Result<Vec<u32>, usize> {
    text.exactly(b"aag")?;
    text.space()?;
    let place = text.place();
    let variables = text.number(|_| true)?;
    let mut words = vec![0; 4];
    for size in HEADER {
        text.space()?;
        words[size] = text.number(|number| number <= MOST[size] as usize)? as u32;
    }
    // M is judged after the other sizes, but before what follows the last of them.
    if variables != Sizes::new(&words).width() {
        return Err(place);
    }
    text.line_end()?;
    Ok(words)
}

/// The next literal and the reset of a latch whose literal is `own`.
fn latch_line(text: &mut Text, own: usize, any: usize) -> Result<[usize; 2], usize> {
    text.number(|number| number == own)?;
    text.space()?;
    let next = text.number(|number| number <= any)?;
    let mut reset = 0;
    if text.at_space() {
        text.space()?;
        reset = text.number(|number| number <= 1 || number == own)?.min(2);
    }
    text.line_end()?;
    Ok([next, reset])
}

fn gate_line(text: &mut Text, own: usize) -> Result<[usize; 2], usize> {
    text.number(|number| number == own)?;
    text.space()?;
    let left = text.number(|number| number < own)?;
    text.space()?;
    let right = text.number(|number| number < own)?;
    text.line_end()?;
    Ok([left, right])
}

/// The words of a text, or the place of its fault. What follows the last line is not looked at.
fn words_of(bytes: &[u8]) -> Result<Vec<u32>, usize> {
    let mut text = Text::new(bytes);
    let mut words = first_line(&mut text)?;
    let sizes = Sizes::new(&words);
    let any = 2 * sizes.width() + 1;
    for input in 0..sizes.inputs {
        text.number(|number| number == sizes.input(input))?;
        text.line_end()?;
    }
    let mut pairs = Vec::new();
    for latch in 0..sizes.latches {
        pairs.extend(latch_line(&mut text, sizes.latch(latch), any)?);
    }
    let mut outputs = Vec::new();
    for _ in 0..sizes.outputs {
        outputs.push(text.number(|number| number <= any)?);
        text.line_end()?;
    }
    for gate in 0..sizes.gates {
        pairs.extend(gate_line(&mut text, sizes.gate(gate))?);
    }
    if bytes.len() > text::MOST {
        return Err(text::MOST);
    }
    words.extend(pairs.iter().chain(&outputs).map(|&number| number as u32));
    Ok(words)
}

/// For a word past the first four: the refusal that guards it, and its largest value.
pub fn guard(sizes: &Sizes, place: usize) -> (u32, usize) {
    let any = 2 * sizes.width() + 1;
    if place < sizes.gates_from() {
        return if place % 2 == 0 { (4, any) } else { (3, 2) };
    }
    if place < sizes.outputs_from() {
        return (4, sizes.gate((place - sizes.gates_from()) / 2) - 1);
    }
    (4, any)
}

/// What is wrong with words: too few for the sizes, a size, the length, then the words in order.
fn fault(words: &[u32]) -> Option<Answer> {
    if words.len() < 4 {
        return Some(refused(1, words.len()));
    }
    if let Some(place) = (0..4).find(|&place| words[place] > MOST[place]) {
        return Some(refused(2, place));
    }
    let sizes = Sizes::new(words);
    if words.len() != sizes.length() {
        return Some(refused(1, words.len()));
    }
    let wrong = |&place: &usize| words[place] as usize > guard(&sizes, place).1;
    (4..words.len()).find(wrong).map(|place| refused(guard(&sizes, place).0, place))
}

/// The one normal text of words whose length fits their sizes.
pub fn text_of(words: &[u32]) -> Vec<u8> {
    let sizes = Sizes::new(words);
    let mut text = format!("aag {}", sizes.width());
    for size in HEADER {
        text += &format!(" {}", words[size]);
    }
    text += "\n";
    for input in 0..sizes.inputs {
        text += &format!("{}\n", sizes.input(input));
    }
    let (latches, gates) = (&words[4..sizes.gates_from()], &words[sizes.gates_from()..sizes.outputs_from()]);
    for (latch, pair) in latches.chunks(2).enumerate() {
        let own = sizes.latch(latch);
        text += &match pair[1] {
            0 => format!("{own} {}\n", pair[0]),
            1 => format!("{own} {} 1\n", pair[0]),
            _ => format!("{own} {} {own}\n", pair[0]),
        };
    }
    for output in &words[sizes.outputs_from()..] {
        text += &format!("{output}\n");
    }
    for (gate, pair) in gates.chunks(2).enumerate() {
        text += &format!("{} {} {}\n", sizes.gate(gate), pair[0], pair[1]);
    }
    text.into_bytes()
}

/// Puts a result at the start of its room; 27 leaves the room alone.
fn put<T: Copy>(result: &[T], room: &mut [T]) -> Answer {
    let needed = result.len();
    if room.len() < needed {
        return refused(27, needed);
    }
    room[..needed].copy_from_slice(result);
    yes(needed)
}

/// Reads a text into a room for words.
pub fn read(text: &[u8], room: &mut [u32]) -> Answer {
    match words_of(text) {
        Ok(words) => put(&words, room),
        Err(place) => refused(19, place),
    }
}

/// Writes words as text into a room for bytes.
pub fn write(words: &[u32], room: &mut [u8]) -> Answer {
    match fault(words) {
        Some(answer) => answer,
        None => put(&text_of(words), room),
    }
}
