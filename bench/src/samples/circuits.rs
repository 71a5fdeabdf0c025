//! Problems with every size at its limit: random circuits, random formulas, and runs that show them.

use crate::plain::problem::*;
use crate::plain::{witness, YES};
use crate::random::Random;

/// The version of words without constraints, and of words with them.
pub const VERSION: u32 = 1;
pub const CONSTRAINED: u32 = 2;

const INPUTS: usize = MOST[0] as usize;
const LATCHES: usize = MOST[1] as usize;
const GATES: usize = MOST[2] as usize;
const NODES: usize = MOST[3] as usize;
const BOUND: usize = MOST[4] as usize;
pub const CONSTRAINTS: usize = MOST[5] as usize;

const FIRST_GATE: usize = 1 + INPUTS + LATCHES;
const VARIABLES: usize = FIRST_GATE + GATES;
const LITERALS: usize = 2 * VARIABLES;

/// A problem's version and words, and a witness of it.
pub struct Shown {
    pub version: u32,
    pub words: Vec<u32>,
    pub witness: Vec<u8>,
}

fn turned(random: &mut Random, variable: usize) -> u32 {
    (2 * variable + random.below(2)) as u32
}

fn words(latches: &[[u32; 2]], gates: &[[u32; 2]], nodes: &[[u32; 3]]) -> Vec<u32> {
    [&MOST[..5], latches.as_flattened(), gates.as_flattened(), nodes.as_flattened()].concat()
}

/// Good words without constraints as words with these.
pub fn with_constraints(words: &[u32], constraints: &[u32]) -> Vec<u32> {
    let (header, rest) = words.split_at(5);
    let (circuit, nodes) = rest.split_at(2 * (words[1] + words[2]) as usize);
    [header, &[constraints.len() as u32], circuit, constraints, nodes].concat()
}

fn bits(random: &mut Random, count: usize) -> Vec<u8> {
    (0..count).map(|_| random.below(2) as u8).collect()
}

/// Gates over all that comes before them.
fn gates(random: &mut Random) -> Vec<[u32; 2]> {
    let side = |random: &mut Random, own: usize| random.below(2 * own) as u32;
    (FIRST_GATE..VARIABLES).map(|own| [side(random, own), side(random, own)]).collect()
}

/// A literal of an input or of one of the first gates, so many, that read nothing but such literals.
fn over_inputs(random: &mut Random, gates: usize) -> u32 {
    let n = random.below(INPUTS + gates);
    turned(random, if n < INPUTS { 1 + n } else { FIRST_GATE + n - INPUTS })
}

/// So many nodes over so many literals, each named by a later one but the last.
pub fn formula(random: &mut Random, nodes: usize, literals: usize) -> Vec<[u32; 3]> {
    let mut open: Vec<u32> = vec![];
    let node = |n: usize| {
        let left = nodes - n;
        let node = if open.len() < left && (open.is_empty() || random.one_in(4)) {
            [ATOM, random.below(literals) as u32, 0]
        } else if open.len() > left || (open.len() > 1 && random.one_in(2)) {
            let a = open.swap_remove(random.below(open.len()));
            let b = open.swap_remove(random.below(open.len()));
            [random.pick(&[AND, OR, UNTIL, RELEASE]), a, b]
        } else {
            let a = open.swap_remove(random.below(open.len()));
            let other = random.below(n) as u32;
            match random.pick(&[AND, OR, NEXT, FINALLY, GLOBALLY, UNTIL, RELEASE]) {
                op @ (NEXT | FINALLY | GLOBALLY) => [op, a, 0],
                op if random.one_in(2) => [op, a, other],
                op => [op, other, a],
            }
        };
        open.push(n as u32);
        node
    };
    (0..nodes).map(node).collect()
}

/// The bytes of a run, its latches by their resets.
fn bytes(random: &mut Random, first: usize, latches: &[[u32; 2]], inputs: &[Vec<u8>]) -> Vec<u8> {
    let mut bytes = vec![first as u8];
    for &[_, reset] in latches {
        bytes.push(if reset < 2 { reset as u8 } else { random.below(2) as u8 });
    }
    bytes.extend(inputs.concat());
    bytes
}

fn prefix(random: &mut Random) -> Shown {
    let latch = |random: &mut Random| [random.below(LITERALS) as u32, random.below(3) as u32];
    let latches: Vec<_> = (0..LATCHES).map(|_| latch(random)).collect();
    let words = words(&latches, &gates(random), &formula(random, NODES, LITERALS));
    let inputs: Vec<_> = (0..=BOUND).map(|_| bits(random, INPUTS)).collect();
    Shown { version: VERSION, words, witness: bytes(random, 0, &latches, &inputs) }
}

/// A latch's next value rests on the inputs alone, so that the loop closes where the inputs at k are those before its start.
fn lasso(random: &mut Random) -> Shown {
    let mut gates = gates(random);
    for (n, gate) in gates[..GATES / 4].iter_mut().enumerate() {
        *gate = [over_inputs(random, n), over_inputs(random, n)];
    }
    let latch = |random: &mut Random| [over_inputs(random, GATES / 4), random.below(3) as u32];
    let latches: Vec<_> = (0..LATCHES).map(|_| latch(random)).collect();
    let words = words(&latches, &gates, &formula(random, NODES, LITERALS));
    let mut inputs: Vec<_> = (0..=BOUND).map(|_| bits(random, INPUTS)).collect();
    let start = random.between(1, BOUND);
    inputs[BOUND] = inputs[start - 1].clone();
    Shown { version: VERSION, words, witness: bytes(random, start + 1, &latches, &inputs) }
}

fn witnesses(seed: u64, count: usize, make: fn(&mut Random) -> Shown) -> Vec<Shown> {
    let mut random = Random::new(seed);
    let made = std::iter::repeat_with(|| make(&mut random));
    let shows = |shown: &Shown| witness::judge(VERSION, &shown.words, &shown.witness) == YES;
    made.filter(shows).take(count).collect()
}

/// So many problems, each with a prefix that is a witness.
pub fn prefixes(seed: u64, count: usize) -> Vec<Shown> {
    witnesses(seed, count, prefix)
}

/// So many problems, each with a lasso that is a witness.
pub fn lassos(seed: u64, count: usize) -> Vec<Shown> {
    witnesses(seed, count, lasso)
}

/// Literals that are true at all positions of the run that is shown, as many as there may be constraints.
fn met(random: &mut Random, shown: &Shown) -> Vec<u32> {
    let (problem, _) = checked(shown.version, &shown.words).expect("what is shown is good");
    let rows = witness::run(&problem, &shown.witness);
    let holds = |&literal: &u32| rows.chunks_exact(VARIABLES).all(|row| witness::value(row, literal));
    let all: Vec<u32> = (2..LITERALS as u32).filter(holds).collect();
    (0..CONSTRAINTS).map(|_| random.pick(&all)).collect()
}

/// The same problems and runs with as many constraints as there may be, all of which the run meets.
pub fn constrained(seed: u64, shown: &[Shown]) -> Vec<Shown> {
    let random = &mut Random::new(seed);
    let constrained = |shown: &Shown| Shown {
        version: CONSTRAINED,
        words: with_constraints(&shown.words, &met(random, shown)),
        witness: shown.witness.clone(),
    };
    shown.iter().map(constrained).collect()
}

/// The words of a problem whose CNF is as long as one can be: every reset fixed, and U or R nodes over one atom.
pub fn largest(seed: u64) -> Vec<u32> {
    let random = &mut Random::new(seed);
    let latch = |random: &mut Random| [random.below(LITERALS) as u32, random.below(2) as u32];
    let latches: Vec<_> = (0..LATCHES).map(|_| latch(random)).collect();
    let mut nodes = vec![[ATOM, random.below(LITERALS) as u32, 0]];
    nodes.extend((1..NODES as u32).map(|n| [random.pick(&[UNTIL, RELEASE]), 0, n - 1]));
    words(&latches, &gates(random), &nodes)
}

/// The same with as many constraints as there may be.
pub fn largest_constrained(seed: u64) -> Vec<u32> {
    let random = &mut Random::new(seed);
    let constraints: Vec<_> = (0..CONSTRAINTS).map(|_| random.below(LITERALS) as u32).collect();
    with_constraints(&largest(seed), &constraints)
}

/// A good problem of any sizes and of the same version: the first latches, gates, constraints and nodes of one at all limits, and their
/// literals as remainders by what is left.
pub fn resized(random: &mut Random, version: u32, words: &[u32]) -> Vec<u32> {
    let (problem, _) = checked(version, words).expect("a problem at all limits is good");
    let sizes: [_; 6] = std::array::from_fn(|at| random.between(LEAST[at] as usize, MOST[at] as usize));
    let [inputs, latches, gates, nodes, _, constraints] = sizes;
    let first = 1 + inputs + latches;
    let literals = 2 * (first + gates) as u32;
    let latches = problem.latches[..latches].iter().map(|&[next, reset]| [next % literals, reset]);
    let gates = (first as u32..).zip(&problem.gates[..gates]);
    let gates = gates.map(|(own, sides)| sides.map(|side| side % (2 * own)));
    let nodes = problem.nodes[..nodes].iter();
    let nodes = nodes.map(|&[op, a, b]| [op, if op == ATOM { a % literals } else { a }, b]);
    let sizes = sizes.into_iter().take(5).map(|size| size as u32);
    let words: Vec<_> =
        sizes.chain(latches.flatten()).chain(gates.flatten()).chain(nodes.flatten()).collect();
    if version == VERSION {
        return words;
    }
    let constraints = problem.constraints[..constraints].iter();
    with_constraints(&words, &constraints.map(|&literal| literal % literals).collect::<Vec<_>>())
}
