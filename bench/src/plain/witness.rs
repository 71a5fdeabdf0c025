//! The judge of a witness: answers 15, 1 to 5, 7 to 9, 20 and 10.

use super::problem::*;
use super::{answer, Answer, YES};

pub fn judge(version: u32, words: &[u32], witness: &[u8]) -> Answer {
    judged(version, words, witness).err().unwrap_or(YES)
}

fn judged(version: u32, words: &[u32], witness: &[u8]) -> Result<(), Answer> {
    let (problem, _) = checked(version, words)?;
    check_bytes(&problem, witness)?;
    let rows = run(&problem, witness);
    let start = (witness[0] as usize).checked_sub(1);
    if let Some(start) = start {
        check_loop(&problem, &rows, start)?;
    }
    check_constraints(&problem, &rows)?;
    if formula(&problem, &rows, start, &mut truths(&problem)) {
        Ok(())
    } else {
        Err(answer(10, 0))
    }
}

/// 7: the length, then the bytes in order; 8: the latches against their resets.
fn check_bytes(problem: &Problem, witness: &[u8]) -> Result<(), Answer> {
    let latches = problem.latches.len();
    if witness.len() != 1 + latches + problem.inputs * (problem.bound + 1) {
        return Err(answer(7, witness.len()));
    }
    if witness[0] as usize > problem.bound + 1 {
        return Err(answer(7, 0));
    }
    if let Some(bad) = witness[1..].iter().position(|&byte| byte > 1) {
        return Err(answer(7, 1 + bad));
    }
    for (i, (&[_, reset], &byte)) in problem.latches.iter().zip(&witness[1..]).enumerate() {
        if reset != 2 && reset != u32::from(byte) {
            return Err(answer(8, 1 + i));
        }
    }
    Ok(())
}

/// The value of a literal in a row of the variables 0..W.
pub fn value(row: &[bool], literal: u32) -> bool {
    row[literal as usize / 2] != (literal % 2 == 1)
}

/// Room for the values of the variables 0..W at each position, one row after the other.
pub fn rows(problem: &Problem) -> Vec<bool> {
    vec![false; (problem.bound + 1) * (problem.width() + 1)]
}

/// The gates of a row, each over the variables before it.
pub fn gates(problem: &Problem, row: &mut [bool]) {
    let first = 1 + problem.inputs + problem.latches.len();
    for (j, &[left, right]) in problem.gates.iter().enumerate() {
        row[first + j] = value(row, left) & value(row, right);
    }
}

/// The rows of the run that a witness shows.
pub fn run(problem: &Problem, witness: &[u8]) -> Vec<bool> {
    let (inputs, latches) = (problem.inputs, problem.latches.len());
    let width = problem.width() + 1;
    let mut rows = rows(problem);
    for (bit, &byte) in rows[1 + inputs..][..latches].iter_mut().zip(&witness[1..]) {
        *bit = byte == 1;
    }
    for t in 0..=problem.bound {
        let (row, after) = rows[t * width..].split_at_mut(width);
        let bytes = &witness[1 + latches + t * inputs..][..inputs];
        for (bit, &byte) in row[1..].iter_mut().zip(bytes) {
            *bit = byte == 1;
        }
        gates(problem, row);
        if t < problem.bound {
            for (bit, &[next, _]) in after[1 + inputs..].iter_mut().zip(problem.latches) {
                *bit = value(row, next);
            }
        }
    }
    rows
}

/// 9: the first latch whose next value at k is not its value at the loop's start.
pub fn check_loop(problem: &Problem, rows: &[bool], start: usize) -> Result<(), Answer> {
    let width = problem.width() + 1;
    let last = &rows[problem.bound * width..];
    let here = &rows[start * width + 1 + problem.inputs..];
    for (i, (&[next, _], &bit)) in problem.latches.iter().zip(here).enumerate() {
        if value(last, next) != bit {
            return Err(answer(9, i));
        }
    }
    Ok(())
}

/// Whether every constraint holds at the position of a row.
pub fn constraints_hold(problem: &Problem, row: &[bool]) -> bool {
    problem.constraints.iter().all(|&literal| value(row, literal))
}

/// 20: the first position at which a constraint is false.
fn check_constraints(problem: &Problem, rows: &[bool]) -> Result<(), Answer> {
    let mut rows = rows.chunks_exact(problem.width() + 1);
    match rows.position(|row| !constraints_hold(problem, row)) {
        Some(position) => Err(answer(20, position)),
        None => Ok(()),
    }
}

/// A node's values from the last position down; `of` gives one from its position and the node's value at the next.
fn pass(row: &mut [bool], end: bool, of: impl Fn(usize, bool) -> bool) {
    let mut later = end;
    for (i, bit) in row.iter_mut().enumerate().rev() {
        later = of(i, later);
        *bit = later;
    }
}

/// U and R: on a lasso a first pass finds the value at the loop's start, which is then the one past the last position.
fn passes(row: &mut [bool], end: bool, start: Option<usize>, of: impl Fn(usize, bool) -> bool) {
    let Some(start) = start else {
        return pass(row, false, of);
    };
    pass(row, end, &of);
    pass(row, row[start], of);
}

/// Room for the values of the nodes at each position, one node after the other.
pub fn truths(problem: &Problem) -> Vec<bool> {
    vec![false; problem.nodes.len() * (problem.bound + 1)]
}

/// Whether the formula, the last node, is true at position 0; every node is valued anew.
pub fn formula(problem: &Problem, rows: &[bool], start: Option<usize>, truth: &mut [bool]) -> bool {
    let width = problem.width() + 1;
    let positions = problem.bound + 1;
    for (n, &[op, a, b]) in problem.nodes.iter().enumerate() {
        let (below, row) = truth.split_at_mut(n * positions);
        let row = &mut row[..positions];
        let child = |c: u32| &below[c as usize * positions..][..positions];
        match op {
            ATOM => pass(row, false, |i, _| value(&rows[i * width..][..width], a)),
            NEXT => {
                let f = child(a);
                row[..problem.bound].copy_from_slice(&f[1..]);
                row[problem.bound] = start.is_some_and(|l| f[l]);
            }
            FINALLY | GLOBALLY => {
                let f = child(a);
                if op == FINALLY {
                    passes(row, false, start, |i, later| f[i] | later);
                } else {
                    passes(row, true, start, |i, later| f[i] & later);
                }
            }
            _ => {
                let (f, g) = (child(a), child(b));
                match op {
                    AND => pass(row, false, |i, _| f[i] & g[i]),
                    OR => pass(row, false, |i, _| f[i] | g[i]),
                    UNTIL => passes(row, false, start, |i, later| g[i] | (f[i] & later)),
                    _ => passes(row, true, start, |i, later| g[i] & (f[i] | later)),
                }
            }
        }
    }
    truth[(problem.nodes.len() - 1) * positions]
}
