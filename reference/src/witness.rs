//! Witnesses: answers 7 to 10 and 20, by the meaning of the formula on the run itself.

use crate::problem::*;

/// Values of the circuit variables at each position; entry 0 is the constant false.
pub type Run = Vec<Vec<bool>>;

pub fn literal(values: &[bool], literal: usize) -> bool {
    values[literal / 2] != (literal % 2 == 1)
}

/// One position: inputs and latches as given, gates in order.
fn position(problem: &Problem, inputs: &[u8], latches: &[bool]) -> Vec<bool> {
    let mut values = vec![false];
    values.extend(inputs.iter().map(|&byte| byte == 1));
    values.extend(latches);
    for &(left, right) in &problem.gates {
        let both = literal(&values, left as usize) && literal(&values, right as usize);
        values.push(both);
    }
    values
}

fn next_latches(problem: &Problem, values: &[bool]) -> Vec<bool> {
    problem.latches.iter().map(|&(next, _)| literal(values, next as usize)).collect()
}

/// The run that bytes in range show.
pub fn run(problem: &Problem, bytes: &[u8]) -> Run {
    let inputs_from = 1 + problem.latches.len();
    let mut latches: Vec<bool> = bytes[1..inputs_from].iter().map(|&byte| byte == 1).collect();
    let mut run = Run::new();
    for t in 0..=problem.k {
        let from = inputs_from + t * problem.inputs;
        let values = position(problem, &bytes[from..from + problem.inputs], &latches);
        latches = next_latches(problem, &values);
        run.push(values);
    }
    run
}

/// Truth of one node at the positions 0..k of a lasso whose loop starts at l.
/// Any k + 1 places on end of the endless path meet every position still to come.
fn on_lasso(node: &Node, truth: &[Vec<bool>], run: &Run, l: usize, i: usize) -> bool {
    let k = run.len() - 1;
    let after = |at: usize| if at == k { l } else { at + 1 };
    let coming = || std::iter::successors(Some(i), |&at| Some(after(at))).take(k + 1);
    let a = |at: usize| truth[node.a][at];
    let b = |at: usize| truth[node.b][at];
    match node.op {
        ATOM => literal(&run[i], node.a),
        AND => a(i) && b(i),
        OR => a(i) || b(i),
        NEXT => a(after(i)),
        FINALLY => coming().any(a),
        GLOBALLY => coming().all(a),
        UNTIL => match coming().position(b) {
            Some(goal) => coming().take(goal).all(a),
            None => false,
        },
        _ => match coming().position(|at| !b(at)) {
            Some(fault) => coming().take(fault).any(a),
            None => true,
        },
    }
}

/// Truth of one node at i of a prefix; `later` is its own truth at i + 1. All is false past k.
fn on_prefix(node: &Node, truth: &[Vec<bool>], run: &Run, i: usize, later: bool) -> bool {
    let k = run.len() - 1;
    let a = |at: usize| at <= k && truth[node.a][at];
    let b = |at: usize| at <= k && truth[node.b][at];
    match node.op {
        ATOM => literal(&run[i], node.a),
        AND => a(i) && b(i),
        OR => a(i) || b(i),
        NEXT => a(i + 1),
        FINALLY => a(i) || later,
        GLOBALLY => a(i) && later,
        UNTIL => b(i) || (a(i) && later),
        _ => b(i) && (a(i) || later),
    }
}

/// Whether the formula, the last node, is true at position 0.
fn formula(problem: &Problem, run: &Run, start: Option<usize>) -> bool {
    let mut truth: Vec<Vec<bool>> = Vec::new();
    for node in &problem.nodes {
        let mut row = vec![false; problem.k + 1];
        let mut later = false;
        for i in (0..=problem.k).rev() {
            row[i] = match start {
                Some(l) => on_lasso(node, &truth, run, l, i),
                None => on_prefix(node, &truth, run, i, later),
            };
            later = row[i];
        }
        truth.push(row);
    }
    truth[problem.nodes.len() - 1][0]
}

fn bytes_in_range(problem: &Problem, bytes: &[u8]) -> Option<Answer> {
    if bytes.len() != problem.witness_length() {
        return Some(refused(7, bytes.len()));
    }
    let most = |place: usize| if place == 0 { problem.k + 1 } else { 1 };
    let bad = (0..bytes.len()).find(|&place| bytes[place] as usize > most(place));
    bad.map(|place| refused(7, place))
}

/// The first position at which some constraint is false.
fn first_breach(problem: &Problem, run: &Run) -> Option<usize> {
    let holds = |values: &[bool]| problem.constraints.iter().all(|&c| literal(values, c as usize));
    run.iter().position(|values| !holds(values))
}

/// Judges witness bytes for a problem that passed the check.
pub fn judge(problem: &Problem, bytes: &[u8]) -> Answer {
    if let Some(answer) = bytes_in_range(problem, bytes) {
        return answer;
    }
    for (latch, &(_, reset)) in problem.latches.iter().enumerate() {
        if reset != 2 && u32::from(bytes[1 + latch]) != reset {
            return refused(8, 1 + latch);
        }
    }
    let run = run(problem, bytes);
    let start = (bytes[0] as usize).checked_sub(1);
    if let Some(l) = start {
        let wanted = next_latches(problem, &run[problem.k]);
        let here = &run[l][1 + problem.inputs..];
        if let Some(latch) = (0..wanted.len()).find(|&latch| wanted[latch] != here[latch]) {
            return refused(9, latch);
        }
    }
    if let Some(position) = first_breach(problem, &run) {
        return refused(20, position);
    }
    if formula(problem, &run, start) {
        yes(0)
    } else {
        refused(10, 0)
    }
}

/// All byte strings of the right length with bytes in range, in rising order.
pub fn candidates(problem: &Problem) -> Vec<Vec<u8>> {
    let bits = problem.witness_length() - 1;
    assert!(bits <= 20, "too many candidates to list");
    let mut all = Vec::new();
    for first in 0..=problem.k as u8 + 1 {
        for number in 0..1u32 << bits {
            let mut bytes = vec![first];
            bytes.extend((0..bits).rev().map(|bit| (number >> bit & 1) as u8));
            all.push(bytes);
        }
    }
    all
}

/// All witnesses of a small problem.
pub fn all(problem: &Problem) -> Vec<Vec<u8>> {
    let accepted = |bytes: &Vec<u8>| judge(problem, bytes).number == 0;
    candidates(problem).into_iter().filter(accepted).collect()
}
