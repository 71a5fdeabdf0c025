//! The writer of a problem's CNF: answers 15, 1 to 6.

use super::problem::*;
use super::{answer, Answer};

const TRUE: i32 = 1;
const FALSE: i32 = -1;

pub fn write(version: u32, words: &[u32], room: &mut [i32]) -> Answer {
    let (problem, counts) = match checked(version, words) {
        Ok(checked) => checked,
        Err(refused) => return refused,
    };
    let needed = counts.words;
    if room.len() < needed {
        return answer(6, needed);
    }
    Writer { numbers: Numbers::new(&problem), problem, room, at: 0 }.all();
    answer(0, needed)
}

/// The numbers of the variables.
struct Numbers {
    width: i32,
    latches: i32,
    gates: i32,
    selectors: i32,
    nodes: i32,
    positions: i32,
}

impl Numbers {
    fn new(problem: &Problem) -> Numbers {
        let (width, positions) = (problem.width() as i32, problem.bound as i32 + 1);
        let latches = problem.inputs as i32 + 1;
        let gates = latches + problem.latches.len() as i32;
        let selectors = positions * width + 2;
        Numbers { width, latches, gates, selectors, nodes: selectors + positions, positions }
    }

    fn circuit(&self, variable: i32, t: i32) -> i32 {
        1 + t * self.width + variable
    }

    /// A circuit literal at t; literal 0 is -1 and literal 1 is 1.
    fn literal(&self, literal: u32, t: i32) -> i32 {
        let number = if literal < 2 { FALSE } else { self.circuit((literal / 2) as i32, t) };
        if literal % 2 == 1 {
            -number
        } else {
            number
        }
    }

    fn p(&self, n: u32, i: i32) -> i32 {
        let from = self.nodes + n as i32 * (2 * self.positions + 1);
        // P(n,k+1) is read as E(n), which comes after all Q(n,0..k).
        from + if i == self.positions { 2 * self.positions } else { i }
    }

    fn q(&self, n: u32, i: i32) -> i32 {
        self.p(n, 0) + self.positions + i
    }
}

struct Writer<'a> {
    problem: Problem<'a>,
    numbers: Numbers,
    room: &'a mut [i32],
    at: usize,
}

impl Writer<'_> {
    fn clause<const N: usize>(&mut self, literals: [i32; N]) {
        let words = &mut self.room[self.at..self.at + N + 1];
        words[..N].copy_from_slice(&literals);
        words[N] = 0;
        self.at += N + 1;
    }

    fn equal(&mut self, x: i32, a: i32) {
        self.clause([-x, a]);
        self.clause([x, -a]);
    }

    fn or(&mut self, x: i32, a: i32, b: i32) {
        self.clause([x, -a]);
        self.clause([x, -b]);
        self.clause([-x, a, b]);
    }

    fn until(&mut self, x: i32, a: i32, b: i32, y: i32) {
        self.clause([x, -b]);
        self.clause([x, -a, -y]);
        self.clause([-x, b, a]);
        self.clause([-x, b, y]);
    }

    /// The form of a node at i for x, with y for the same node one position on.
    fn form(&mut self, [op, a, b]: [u32; 3], i: i32, x: i32, y: i32) {
        let n = &self.numbers;
        match op {
            ATOM => self.equal(x, n.literal(a, i)),
            AND => self.or(-x, -n.p(a, i), -n.p(b, i)),
            OR => self.or(x, n.p(a, i), n.p(b, i)),
            NEXT => self.equal(x, n.p(a, i + 1)),
            FINALLY => self.until(x, TRUE, n.p(a, i), y),
            GLOBALLY => self.until(-x, -FALSE, -n.p(a, i), -y),
            UNTIL => self.until(x, n.p(a, i), n.p(b, i), y),
            _ => self.until(-x, -n.p(a, i), -n.p(b, i), -y),
        }
    }

    /// Items 2 to 4: gates and after them the constraints, resets, steps.
    fn run(&mut self) {
        let Problem { latches, gates, constraints, bound, .. } = self.problem;
        let (first_latch, first_gate) = (self.numbers.latches, self.numbers.gates);
        for t in 0..=bound as i32 {
            for (gate, &[left, right]) in (first_gate..).zip(gates) {
                let n = &self.numbers;
                let (x, a, b) = (n.circuit(gate, t), n.literal(left, t), n.literal(right, t));
                self.or(-x, -a, -b);
            }
        }
        for t in 0..=bound as i32 {
            for &constraint in constraints {
                self.clause([self.numbers.literal(constraint, t)]);
            }
        }
        for (latch, &[_, reset]) in (first_latch..).zip(latches) {
            let x = self.numbers.circuit(latch, 0);
            match reset {
                0 => self.clause([-x]),
                1 => self.clause([x]),
                _ => {}
            }
        }
        for t in 0..bound as i32 {
            for (latch, &[next, _]) in (first_latch..).zip(latches) {
                self.equal(self.numbers.circuit(latch, t + 1), self.numbers.literal(next, t));
            }
        }
    }

    /// Items 5 and 6: how a loop closes, and at most one selector.
    fn loops(&mut self) {
        let Problem { latches, bound, .. } = self.problem;
        let selectors = self.numbers.selectors..self.numbers.selectors + self.numbers.positions;
        for (l, s) in (0..).zip(selectors.clone()) {
            for (latch, &[next, _]) in (self.numbers.latches..).zip(latches) {
                let (x, a) = (self.numbers.circuit(latch, l), self.numbers.literal(next, bound as i32));
                self.clause([-s, -x, a]);
                self.clause([-s, x, -a]);
            }
        }
        for s in selectors.clone() {
            for later in s + 1..selectors.end {
                self.clause([-s, -later]);
            }
        }
    }

    /// Item 7 for one node.
    fn node(&mut self, n: u32, node: [u32; 3]) {
        let positions = self.numbers.positions;
        let e = self.numbers.p(n, positions);
        for i in 0..positions {
            let (p, q) = (self.numbers.p(n, i), self.numbers.q(n, i));
            self.form(node, i, p, self.numbers.p(n, i + 1));
            if node[0] <= NEXT {
                self.equal(q, p);
                continue;
            }
            let goal = node[0] == FINALLY || node[0] == UNTIL;
            let end = if goal { FALSE } else { TRUE };
            self.form(node, i, q, if i + 1 < positions { q + 1 } else { end });
        }
        let selectors = self.numbers.selectors..self.numbers.selectors + positions;
        for (l, s) in (0..).zip(selectors.clone()) {
            let q = self.numbers.q(n, l);
            self.clause([-s, -e, q]);
            self.clause([-s, e, -q]);
        }
        let words = &mut self.room[self.at..self.at + positions as usize + 2];
        words[0] = -e;
        for (word, s) in words[1..].iter_mut().zip(selectors) {
            *word = s;
        }
        words[positions as usize + 1] = 0;
        self.at += words.len();
    }

    fn all(&mut self) {
        self.clause([TRUE]);
        self.run();
        self.loops();
        for (n, &node) in (0..).zip(self.problem.nodes) {
            self.node(n, node);
        }
        let last = self.problem.nodes.len() as u32 - 1;
        self.clause([self.numbers.p(last, 0)]);
    }
}
