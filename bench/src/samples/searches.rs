//! Problems with few free bits, whose first witness in byte order is known: ones that a search has to go all through, and small ones.

use super::circuits::{formula, with_constraints, CONSTRAINED, CONSTRAINTS, VERSION};
use crate::plain::problem::*;
use crate::random::Random;

const LATCHES: usize = 16;
const GATES: usize = MOST[2] as usize;
const NODES: usize = MOST[3] as usize;
const BOUND: usize = MOST[4] as usize;

/// Resets.
const TRUE: u32 = 1;
const FREE: u32 = 2;

/// A problem's version and words, and its first witness if it has one.
pub struct Sought {
    pub version: u32,
    pub words: Vec<u32>,
    pub witness: Option<Vec<u8>>,
}

fn unconstrained(words: Vec<u32>, witness: Option<Vec<u8>>) -> Sought {
    Sought { version: VERSION, words, witness }
}

/// A problem of these words and constraints without a witness.
fn none_constrained((words, constraints): (Vec<u32>, Vec<u32>)) -> Sought {
    Sought { version: CONSTRAINED, words: with_constraints(&words, &constraints), witness: None }
}

/// Inputs and latches, and the gates over them as far as they are made. A gate is named by its literal.
struct Circuit {
    inputs: Vec<u32>,
    latches: Vec<u32>,
    gates: Vec<[u32; 2]>,
}

impl Circuit {
    fn new(inputs: usize, latches: usize) -> Circuit {
        let mut literals = (1..).map(|variable| 2 * variable);
        let inputs = literals.by_ref().take(inputs).collect();
        Circuit { inputs, latches: literals.take(latches).collect(), gates: vec![] }
    }

    /// How many literals there are.
    fn literals(&self) -> usize {
        2 * (1 + self.inputs.len() + self.latches.len() + self.gates.len())
    }

    fn and(&mut self, a: u32, b: u32) -> u32 {
        let own = self.literals() as u32;
        self.gates.push([a, b]);
        own
    }

    fn xor(&mut self, a: u32, b: u32) -> u32 {
        let (both, neither) = (self.and(a, b), self.and(a ^ 1, b ^ 1));
        self.and(both ^ 1, neither ^ 1)
    }

    fn all(&mut self, literals: &[u32]) -> u32 {
        literals.iter().fold(1, |all, &literal| self.and(all, literal))
    }

    /// So many random gates over these literals and over one another; answers all of them.
    fn mixed(&mut self, random: &mut Random, over: &[u32], count: usize) -> Vec<u32> {
        let mut literals = over.to_vec();
        for _ in 0..count {
            let [a, b] = std::array::from_fn(|_| random.pick(&literals) ^ random.below(2) as u32);
            literals.push(self.and(a, b));
        }
        literals
    }

    /// One half of the latches turned by random gates over the other half and the inputs, but kept where the other half is all true. By
    /// the other half it can be turned back, so no two states have one next state.
    fn turned(&mut self, random: &mut Random, half: &[u32], other: &[u32], gates: usize) -> Vec<u32> {
        let over = [other, &self.inputs].concat();
        let mixed = self.mixed(random, &over, gates);
        let kept = self.all(other);
        let turn = |&literal: &u32| {
            let by = self.xor(random.pick(&mixed), random.pick(other));
            let by = self.and(by, kept ^ 1);
            self.xor(literal, by)
        };
        half.iter().map(turn).collect()
    }

    /// So many gates; those of the next values, which it answers, send the states round in long rings, so that hardly any loop closes. The
    /// state that is all true stays.
    fn rings(&mut self, random: &mut Random, gates: usize) -> Vec<u32> {
        let (left, right) = self.latches.split_at(LATCHES / 2);
        let (left, right) = (left.to_vec(), right.to_vec());
        let left = self.turned(random, &left, &right, gates / 5);
        let right = self.turned(random, &right, &left, gates / 5);
        self.fill(random, gates);
        [left, right].concat()
    }

    /// Random gates over inputs and latches until there are so many.
    fn fill(&mut self, random: &mut Random, gates: usize) {
        let given = [&self.inputs[..], &self.latches].concat();
        self.mixed(random, &given, gates - self.gates.len());
    }

    fn words(&self, latches: &[[u32; 2]], nodes: &[[u32; 3]], bound: usize) -> Vec<u32> {
        let header = [self.inputs.len(), latches.len(), self.gates.len(), nodes.len(), bound];
        let header = header.map(|size| size as u32);
        [&header, latches.as_flattened(), self.gates.as_flattened(), nodes.as_flattened()].concat()
    }

    /// As many nodes as there may be: a random formula, and that a gate is true at some time, and never.
    fn never(&self, random: &mut Random) -> Vec<[u32; 3]> {
        let mut nodes = formula(random, NODES - 6, self.literals());
        let n = nodes.len() as u32;
        let gate = self.literals() as u32 - 2 * random.between(1, self.gates.len()) as u32;
        nodes.extend([[ATOM, gate, 0], [ATOM, gate + 1, 0], [FINALLY, n, 0], [GLOBALLY, n + 1, 0]]);
        nodes.extend([[AND, n + 2, n + 3], [AND, n - 1, n + 4]]);
        nodes
    }
}

/// As many runs as a search may have to try, every size but I and L at its limit, and no witness.
pub fn none_of_latches(seed: u64) -> Sought {
    let random = &mut Random::new(seed);
    let mut circuit = Circuit::new(0, LATCHES);
    let latches: Vec<_> = circuit.rings(random, GATES).into_iter().map(|next| [next, FREE]).collect();
    unconstrained(circuit.words(&latches, &circuit.never(random), BOUND), None)
}

/// As many runs by one input at 16 positions, and no witness; and constraints over gates that are made first, if any.
fn by_input(seed: u64, constraints: impl Fn(&mut Circuit) -> Vec<u32>) -> (Vec<u32>, Vec<u32>) {
    let random = &mut Random::new(seed);
    let mut circuit = Circuit::new(1, LATCHES);
    let constraints = constraints(&mut circuit);
    let next = circuit.rings(random, GATES / 4);
    let latches: Vec<_> = next.into_iter().map(|next| [next, random.below(2) as u32]).collect();
    (circuit.words(&latches, &circuit.never(random), 15), constraints)
}

pub fn none_of_inputs(seed: u64) -> Sought {
    unconstrained(by_input(seed, |_| vec![]).0, None)
}

/// The same with as many constraints as there may be, which every run meets: no latch is on and off at once.
pub fn none_of_met(seed: u64) -> Sought {
    let never_both = |circuit: &mut Circuit| {
        let latches = circuit.latches.clone();
        latches.iter().take(CONSTRAINTS).map(|&latch| circuit.and(latch, latch ^ 1) ^ 1).collect()
    };
    none_constrained(by_input(seed, never_both))
}

/// The same with one constraint that most runs break: the input and a latch are not both on.
pub fn none_of_broken(seed: u64) -> Sought {
    let not_both = |circuit: &mut Circuit| vec![circuit.and(circuit.inputs[0], circuit.latches[0]) ^ 1];
    none_constrained(by_input(seed, not_both))
}

/// Latches that keep their values, so that every loop closes, and no witness.
pub fn none_of_loops(seed: u64, free: usize) -> Sought {
    let random = &mut Random::new(seed);
    let mut circuit = Circuit::new(0, free);
    circuit.fill(random, GATES);
    let latches: Vec<_> = circuit.latches.iter().map(|&own| [own, FREE]).collect();
    unconstrained(circuit.words(&latches, &circuit.never(random), BOUND), None)
}

/// One witness, the last run of all as a lasso from position 0: G of the state that is all true.
pub fn last_of_lassos(seed: u64, free: usize) -> Sought {
    let random = &mut Random::new(seed);
    let mut circuit = Circuit::new(0, LATCHES);
    let full = circuit.all(&circuit.latches.clone());
    let next = circuit.rings(random, GATES).into_iter().enumerate();
    let latches: Vec<_> = next.map(|(i, next)| [next, if i < free { FREE } else { TRUE }]).collect();
    let mut nodes = formula(random, NODES - 4, circuit.literals());
    let n = nodes.len() as u32;
    nodes.extend([[ATOM, full, 0], [GLOBALLY, n, 0], [OR, n - 1, n + 1], [AND, n + 1, n + 2]]);
    unconstrained(circuit.words(&latches, &nodes, BOUND), Some(vec![1; 1 + LATCHES]))
}

/// A meter that counts hours in 16 bits, the highest first, and lights a lamp from 1,024 on. From any count, the lamp goes out within 7 hours:
/// the first such count is 7 before the meter rolls over.
pub fn meter() -> Sought {
    let mut circuit = Circuit::new(0, LATCHES);
    let hours = circuit.latches.clone();
    let mut latches = vec![];
    let mut carry = 1;
    for &bit in hours.iter().rev() {
        latches.push([circuit.xor(bit, carry), FREE]);
        carry = circuit.and(bit, carry);
    }
    latches.reverse();
    let high: Vec<_> = hours[..6].iter().map(|bit| bit ^ 1).collect();
    let dark = circuit.all(&high);
    let nodes = [[ATOM, dark ^ 1, 0], [ATOM, dark, 0], [NEXT, 1, 0], [AND, 0, 2], [FINALLY, 3, 0]];
    let bits = |count: u16| (0..16).rev().map(move |bit| (count >> bit & 1) as u8);
    let witness = [0].into_iter().chain(bits(u16::MAX - 6)).collect();
    unconstrained(circuit.words(&latches, &nodes, 7), Some(witness))
}

/// A small random problem with so many free bits, with a few constraints or of the version that has none.
pub fn small(random: &mut Random, free: usize) -> (u32, Vec<u32>) {
    let bound = random.below(6);
    let inputs = random.below(free / (bound + 1) + 1);
    let mut resets = vec![FREE; free - inputs * (bound + 1)];
    for _ in 0..random.below(3) {
        resets.insert(random.below(resets.len() + 1), random.below(2) as u32);
    }
    let mut circuit = Circuit::new(inputs, resets.len());
    for _ in 0..random.below(12) {
        let literals = circuit.literals();
        circuit.and(random.below(literals) as u32, random.below(literals) as u32);
    }
    let literals = circuit.literals();
    let latches: Vec<_> = resets.into_iter().map(|reset| [random.below(literals) as u32, reset]).collect();
    let nodes = random.between(1, 10);
    let words = circuit.words(&latches, &formula(random, nodes, literals), bound);
    if random.one_in(2) {
        return (VERSION, words);
    }
    let constraints: Vec<_> = (0..random.below(3)).map(|_| random.below(literals) as u32).collect();
    (CONSTRAINED, with_constraints(&words, &constraints))
}
