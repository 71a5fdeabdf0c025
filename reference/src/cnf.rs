//! The CNF of a problem, clause for clause in the order of document 01, the constraints where document 02 puts them,
//! and answer 6.

use crate::problem::*;

const TRUE: i32 = 1;
const FALSE: i32 = -1;

struct Writer<'a> {
    problem: &'a Problem,
    words: Vec<i32>,
}

/// Start of node n's variables: P(n,0..k), Q(n,0..k), E(n).
fn node_from(problem: &Problem, n: usize) -> usize {
    (problem.k + 1) * (problem.width() + 1) + 2 + n * (2 * problem.k + 3)
}

/// V, the number of E(N-1).
pub fn variables(problem: &Problem) -> usize {
    node_from(problem, problem.nodes.len() - 1) + 2 * problem.k + 2
}

/// The number of selector s(l).
pub fn selector(problem: &Problem, l: usize) -> usize {
    (problem.k + 1) * problem.width() + 2 + l
}

/// The number of circuit variable v at t.
pub fn circuit_variable(problem: &Problem, v: usize, t: usize) -> usize {
    1 + t * problem.width() + v
}

impl Writer<'_> {
    fn clause(&mut self, literals: &[i32]) {
        self.words.extend_from_slice(literals);
        self.words.push(0);
    }

    fn circuit(&self, literal: u32, t: usize) -> i32 {
        match literal {
            0 => FALSE,
            1 => TRUE,
            _ => {
                let number = circuit_variable(self.problem, literal as usize / 2, t) as i32;
                if literal & 1 == 0 {
                    number
                } else {
                    -number
                }
            }
        }
    }

    fn latch(&self, latch: usize, t: usize) -> i32 {
        circuit_variable(self.problem, self.problem.inputs + 1 + latch, t) as i32
    }

    fn s(&self, l: usize) -> i32 {
        selector(self.problem, l) as i32
    }

    fn e(&self, n: usize) -> i32 {
        (node_from(self.problem, n) + 2 * self.problem.k + 2) as i32
    }

    fn p(&self, n: usize, i: usize) -> i32 {
        if i == self.problem.k + 1 {
            return self.e(n);
        }
        (node_from(self.problem, n) + i) as i32
    }

    fn q(&self, n: usize, i: usize) -> i32 {
        if i == self.problem.k + 1 {
            let op = self.problem.nodes[n].op;
            return if op == FINALLY || op == UNTIL { FALSE } else { TRUE };
        }
        (node_from(self.problem, n) + self.problem.k + 1 + i) as i32
    }

    fn equal(&mut self, x: i32, a: i32) {
        self.clause(&[-x, a]);
        self.clause(&[x, -a]);
    }

    fn and(&mut self, x: i32, a: i32, b: i32) {
        self.clause(&[-x, a]);
        self.clause(&[-x, b]);
        self.clause(&[x, -a, -b]);
    }

    fn or(&mut self, x: i32, a: i32, b: i32) {
        self.clause(&[x, -a]);
        self.clause(&[x, -b]);
        self.clause(&[-x, a, b]);
    }

    fn until(&mut self, x: i32, a: i32, b: i32, y: i32) {
        self.clause(&[x, -b]);
        self.clause(&[x, -a, -y]);
        self.clause(&[-x, b, a]);
        self.clause(&[-x, b, y]);
    }

    fn release(&mut self, x: i32, a: i32, b: i32, y: i32) {
        self.clause(&[-x, b]);
        self.clause(&[-x, a, y]);
        self.clause(&[x, -b, -a]);
        self.clause(&[x, -b, -y]);
    }

    /// Parts 2 to 4: gates and after them the constraints, resets, steps.
    fn run(&mut self) {
        let problem = self.problem;
        let first_gate = problem.inputs + problem.latches.len() + 1;
        for t in 0..=problem.k {
            for (g, &(left, right)) in problem.gates.iter().enumerate() {
                let x = circuit_variable(problem, first_gate + g, t) as i32;
                self.and(x, self.circuit(left, t), self.circuit(right, t));
            }
        }
        for t in 0..=problem.k {
            for &constraint in &problem.constraints {
                self.clause(&[self.circuit(constraint, t)]);
            }
        }
        for (latch, &(_, reset)) in problem.latches.iter().enumerate() {
            let x = self.latch(latch, 0);
            match reset {
                0 => self.clause(&[-x]),
                1 => self.clause(&[x]),
                _ => {}
            }
        }
        for t in 0..problem.k {
            for (latch, &(next, _)) in problem.latches.iter().enumerate() {
                self.equal(self.latch(latch, t + 1), self.circuit(next, t));
            }
        }
    }

    /// Parts 5 and 6: how a loop closes, and at most one selector.
    fn selectors(&mut self) {
        let problem = self.problem;
        for l in 0..=problem.k {
            let s = self.s(l);
            for (latch, &(next, _)) in problem.latches.iter().enumerate() {
                let (x, a) = (self.latch(latch, l), self.circuit(next, problem.k));
                self.clause(&[-s, -x, a]);
                self.clause(&[-s, x, -a]);
            }
        }
        for l in 0..=problem.k {
            for m in l + 1..=problem.k {
                self.clause(&[-self.s(l), -self.s(m)]);
            }
        }
    }

    /// The form of node n at i for x, with y for the same node one position on.
    fn form(&mut self, n: usize, i: usize, x: i32, y: i32) {
        let Node { op, a, b } = self.problem.nodes[n];
        match op {
            ATOM => self.equal(x, self.circuit(a as u32, i)),
            AND => self.and(x, self.p(a, i), self.p(b, i)),
            OR => self.or(x, self.p(a, i), self.p(b, i)),
            NEXT => self.equal(x, self.p(a, i + 1)),
            FINALLY => self.until(x, TRUE, self.p(a, i), y),
            GLOBALLY => self.release(x, FALSE, self.p(a, i), y),
            UNTIL => self.until(x, self.p(a, i), self.p(b, i), y),
            _ => self.release(x, self.p(a, i), self.p(b, i), y),
        }
    }

    /// Part 7 for one node.
    fn node(&mut self, n: usize) {
        let k = self.problem.k;
        for i in 0..=k {
            self.form(n, i, self.p(n, i), self.p(n, i + 1));
            if self.problem.nodes[n].op <= NEXT {
                self.equal(self.q(n, i), self.p(n, i));
            } else {
                self.form(n, i, self.q(n, i), self.q(n, i + 1));
            }
        }
        let e = self.e(n);
        for l in 0..=k {
            let (s, q) = (self.s(l), self.q(n, l));
            self.clause(&[-s, -e, q]);
            self.clause(&[-s, e, -q]);
        }
        let mut last = vec![-e];
        last.extend((0..=k).map(|l| self.s(l)));
        self.clause(&last);
    }
}

/// All words of the problem's CNF.
pub fn words(problem: &Problem) -> Vec<i32> {
    let mut writer = Writer { problem, words: Vec::new() };
    writer.clause(&[TRUE]);
    writer.run();
    writer.selectors();
    for n in 0..problem.nodes.len() {
        writer.node(n);
    }
    let formula = writer.p(problem.nodes.len() - 1, 0);
    writer.clause(&[formula]);
    writer.words
}

/// Writes the CNF at the start of the room, or answers 6 and leaves the room alone.
pub fn write(problem: &Problem, room: &mut [i32]) -> Answer {
    let words = words(problem);
    if room.len() < words.len() {
        return refused(6, words.len());
    }
    room[..words.len()].copy_from_slice(&words);
    yes(words.len())
}

/// The clauses of well-formed CNF words.
pub fn clauses(words: &[i32]) -> Vec<&[i32]> {
    let mut parts: Vec<&[i32]> = words.split(|&word| word == 0).collect();
    parts.pop();
    parts
}
