//! The finder of the first witness in byte order: answers 15, 1 to 5, 17, 18, and 0 or 29.

use super::problem::*;
use super::witness::{check_loop, constraints_hold, formula, gates, rows, truths, value};
use super::{answer, Answer};

/// The reset of a latch that may start with either value.
const FREE: u32 = 2;

/// So many bits of a run may be free.
const MOST_FREE: usize = 16;

const GIVEN: usize = (MOST[0] + MOST[1]) as usize;
const POSITIONS: usize = MOST[4] as usize + 1;

/// A run by value: a row of input and latch bits for each position.
type Run = [[bool; GIVEN]; POSITIONS];

pub fn find(version: u32, words: &[u32], room: &mut [u8]) -> Answer {
    let (problem, _) = match checked(version, words) {
        Ok(checked) => checked,
        Err(refused) => return refused,
    };
    let inputs = problem.inputs * (problem.bound + 1);
    let free = inputs + problem.latches.iter().filter(|&&[_, reset]| reset == FREE).count();
    if free > MOST_FREE {
        return answer(17, free);
    }
    let needed = 1 + problem.latches.len() + inputs;
    let Some(room) = room.get_mut(..needed) else {
        return answer(18, needed);
    };
    match Search::new(problem, free).first() {
        Some((first, run)) => {
            write(&problem, first, &run, room);
            answer(0, needed)
        }
        None => answer(29, 0),
    }
}

/// The bytes of a witness: its first, the latches, the inputs of each position.
fn write(problem: &Problem, first: usize, run: &Run, room: &mut [u8]) {
    let inputs = problem.inputs;
    let latches = &run[0][inputs..][..problem.latches.len()];
    let bits = latches.iter().chain(run[..=problem.bound].iter().flat_map(|row| &row[..inputs]));
    room[0] = first as u8;
    for (byte, &bit) in room[1..].iter_mut().zip(bits) {
        *byte = u8::from(bit);
    }
}

struct Search<'a> {
    problem: Problem<'a>,
    free: usize,
    run: Run,
    /// The variables 0..W at each position of the run, and the nodes; made once.
    rows: Vec<bool>,
    truth: Vec<bool>,
}

impl<'a> Search<'a> {
    fn new(problem: Problem<'a>, free: usize) -> Search<'a> {
        let run = [[false; GIVEN]; POSITIONS];
        Search { problem, free, run, rows: rows(&problem), truth: truths(&problem) }
    }

    /// The run of a number: its bits from the highest are the free latches, then the inputs by position.
    fn fill(&mut self, number: usize) {
        let Problem { inputs, latches, bound, .. } = self.problem;
        let mut left = self.free;
        let mut next_bit = || {
            left -= 1;
            number >> left & 1 == 1
        };
        for (bit, &[_, reset]) in self.run[0][inputs..].iter_mut().zip(latches) {
            *bit = if reset == FREE { next_bit() } else { reset == 1 };
        }
        for row in &mut self.run[..=bound] {
            row[..inputs].fill_with(&mut next_bit);
        }
    }

    /// The gates at each position, and the latches that they give at the next; whether the run meets the constraints. One that does not is
    /// given up at the first position that breaks one.
    fn value_rows(&mut self) -> bool {
        let Problem { inputs, latches, bound, .. } = self.problem;
        let width = self.problem.width() + 1;
        for (t, row) in self.rows.chunks_exact_mut(width).enumerate() {
            let given = inputs + latches.len();
            row[1..][..given].copy_from_slice(&self.run[t][..given]);
            gates(&self.problem, row);
            if !constraints_hold(&self.problem, row) {
                return false;
            }
            if t < bound {
                for (bit, &[next, _]) in self.run[t + 1][inputs..].iter_mut().zip(latches) {
                    *bit = value(row, next);
                }
            }
        }
        true
    }

    /// Whether the run with this first byte is a witness; a loop that does not close costs no node.
    fn shows(&mut self, first: usize) -> bool {
        let start = first.checked_sub(1);
        start.is_none_or(|start| check_loop(&self.problem, &self.rows, start).is_ok())
            && formula(&self.problem, &self.rows, start, &mut self.truth)
    }

    /// The lowest first byte of a witness, and the run that has it first. The runs rise, so from then on a lower byte alone will do.
    fn first(mut self) -> Option<(usize, Run)> {
        let mut found = None;
        let mut below = self.problem.bound + 2;
        for number in 0..1 << self.free {
            self.fill(number);
            if !self.value_rows() {
                continue;
            }
            if let Some(first) = (0..below).find(|&first| self.shows(first)) {
                found = Some((first, self.run));
                below = first;
            }
            if below == 0 {
                break;
            }
        }
        found
    }
}
