//! A problem's words, checked and lent in parts: answers 15 and 1 to 5.

use super::counts::{counts, Counts, Size, FORMS};
use super::{answer, Answer, YES};

pub const ATOM: u32 = 0;
pub const AND: u32 = 1;
pub const OR: u32 = 2;
pub const NEXT: u32 = 3;
pub const FINALLY: u32 = 4;
pub const GLOBALLY: u32 = 5;
pub const UNTIL: u32 = 6;
pub const RELEASE: u32 = 7;

/// The words of the longest header.
const HEADER: usize = 6;

/// How many children each op has.
const CHILDREN: [usize; 8] = [0, 2, 2, 1, 1, 1, 2, 2];

/// The limits of I, L, A, N, k, D.
pub const LEAST: [u32; HEADER] = [0, 0, 0, 1, 0, 0];
pub const MOST: [u32; HEADER] = [64, 64, 1024, 64, 31, 16];

#[derive(Clone, Copy)]
pub struct Problem<'a> {
    pub inputs: usize,
    /// Next literal and reset.
    pub latches: &'a [[u32; 2]],
    pub gates: &'a [[u32; 2]],
    pub constraints: &'a [u32],
    /// Op, a, b.
    pub nodes: &'a [[u32; 3]],
    pub bound: usize,
}

impl Problem<'_> {
    /// W, the number of circuit variables.
    pub fn width(&self) -> usize {
        self.inputs + self.latches.len() + self.gates.len()
    }
}

/// The answer, and the numbers of a good problem's CNF; zeros where the problem is refused.
pub fn check(version: u32, words: &[u32]) -> (Answer, Counts) {
    match checked(version, words) {
        Ok((_, counts)) => (YES, counts),
        Err(refused) => (refused, Counts::default()),
    }
}

/// The words of a version's header, with D as 0 where it has none, and the words after it.
fn split(version: u32, words: &[u32]) -> Result<([u32; HEADER], &[u32]), Answer> {
    let mut header = [0; HEADER];
    let length = match version {
        1 => HEADER - 1,
        2 => HEADER,
        _ => return Err(answer(15, 0)),
    };
    let Some((sizes, rest)) = words.split_at_checked(length) else {
        return Err(answer(1, words.len()));
    };
    header[..length].copy_from_slice(sizes);
    Ok((header, rest))
}

/// In the fixed order: version, the header's words, limits, length, then every word in order.
pub fn checked(version: u32, words: &[u32]) -> Result<(Problem<'_>, Counts), Answer> {
    let (header, rest) = split(version, words)?;
    if let Some(place) = (0..HEADER).find(|&at| header[at] < LEAST[at] || header[at] > MOST[at]) {
        return Err(answer(2, place));
    }
    let [inputs, latches, gates, nodes, bound, constraints] = header.map(|word| word as usize);
    if rest.len() != 2 * latches + 2 * gates + constraints + 3 * nodes {
        return Err(answer(1, words.len()));
    }
    let from = words.len() - rest.len();
    let (latch_words, rest) = rest.split_at(2 * latches);
    let (gate_words, rest) = rest.split_at(2 * gates);
    let (constraints, node_words) = rest.split_at(constraints);
    let (latches, gates, nodes) =
        (latch_words.as_chunks().0, gate_words.as_chunks().0, node_words.as_chunks().0);
    let problem = Problem { inputs, latches, gates, constraints, nodes, bound };
    let fixed = check_latches(&problem, from)?;
    let from = from + latch_words.len();
    check_gates(&problem, from)?;
    let from = from + gate_words.len();
    check_constraints(&problem, from)?;
    let forms = check_nodes(&problem, from + constraints.len())?;
    Ok((problem, counts(&problem, fixed, forms)))
}

/// Answers how many resets are fixed. The latches begin at this word, as do the other parts below.
fn check_latches(problem: &Problem, from: usize) -> Result<usize, Answer> {
    let most = 2 * problem.width() as u32 + 1;
    let mut fixed = 0;
    for (i, &[next, reset]) in problem.latches.iter().enumerate() {
        let at = from + 2 * i;
        if next > most {
            return Err(answer(4, at));
        }
        if reset > 2 {
            return Err(answer(3, at + 1));
        }
        fixed += usize::from(reset < 2);
    }
    Ok(fixed)
}

fn check_gates(problem: &Problem, from: usize) -> Result<(), Answer> {
    let first = problem.inputs + problem.latches.len() + 1;
    for (j, &[left, right]) in problem.gates.iter().enumerate() {
        let own = 2 * (first + j) as u32;
        let at = from + 2 * j;
        if left >= own {
            return Err(answer(4, at));
        }
        if right >= own {
            return Err(answer(4, at + 1));
        }
    }
    Ok(())
}

fn check_constraints(problem: &Problem, from: usize) -> Result<(), Answer> {
    let most = 2 * problem.width() as u32 + 1;
    match problem.constraints.iter().position(|&literal| literal > most) {
        Some(bad) => Err(answer(4, from + bad)),
        None => Ok(()),
    }
}

/// Answers the size of all nodes' forms at one position.
fn check_nodes(problem: &Problem, from: usize) -> Result<Size, Answer> {
    // Whatever stands below these is right; a child is below its node's number.
    let literals = 2 * problem.width() as u32 + 2;
    let mut forms = Size::default();
    for (n, &[op, a, b]) in problem.nodes.iter().enumerate() {
        let at = from + 3 * n;
        let Some(&children) = CHILDREN.get(op as usize) else {
            return Err(answer(5, at));
        };
        if a >= if op == ATOM { literals } else { n as u32 } {
            return Err(answer(5, at + 1));
        }
        if b >= if children == 2 { n as u32 } else { 1 } {
            return Err(answer(5, at + 2));
        }
        forms = forms.plus(FORMS[op as usize]);
    }
    Ok(forms)
}
