//! The problem words of document 01, with the constraints of document 02, and their check: answers 15 and 1 to 5.

/// The paper's number of an answer and its place.
#[derive(Clone, Copy, PartialEq, Eq, Debug)]
pub struct Answer {
    pub number: u32,
    pub place: usize,
}

pub fn refused(number: u32, place: usize) -> Answer {
    Answer { number, place }
}

pub fn yes(place: usize) -> Answer {
    Answer { number: 0, place }
}

pub const ATOM: u32 = 0;
pub const AND: u32 = 1;
pub const OR: u32 = 2;
pub const NEXT: u32 = 3;
pub const FINALLY: u32 = 4;
pub const GLOBALLY: u32 = 5;
pub const UNTIL: u32 = 6;
pub const RELEASE: u32 = 7;

/// How many children each op has.
pub const CHILDREN: [usize; 8] = [0, 2, 2, 1, 1, 1, 2, 2];

/// The limits of I, L, A, N, k, D.
pub const LEAST: [u32; 6] = [0, 0, 0, 1, 0, 0];
pub const MOST: [u32; 6] = [64, 64, 1024, 64, 31, 16];

/// How many of these words the header of a version has; other versions are not known.
pub fn header(version: u32) -> Option<usize> {
    match version {
        1 => Some(5),
        2 => Some(6),
        _ => None,
    }
}

#[derive(Clone, Copy, Debug)]
pub struct Node {
    pub op: u32,
    /// The circuit literal of an atom, else the first child.
    pub a: usize,
    pub b: usize,
}

#[derive(Clone, Debug)]
pub struct Problem {
    pub inputs: usize,
    /// Next literal and reset.
    pub latches: Vec<(u32, u32)>,
    pub gates: Vec<(u32, u32)>,
    /// Literals that are true at all positions.
    pub constraints: Vec<u32>,
    pub nodes: Vec<Node>,
    pub k: usize,
}

impl Problem {
    /// W, the number of circuit variables.
    pub fn width(&self) -> usize {
        self.inputs + self.latches.len() + self.gates.len()
    }

    pub fn witness_length(&self) -> usize {
        1 + self.latches.len() + self.inputs * (self.k + 1)
    }
}

/// What a header says of the words: their sizes, and where each part begins.
pub struct Parts {
    inputs: usize,
    latches: usize,
    width: usize,
    latches_from: usize,
    gates_from: usize,
    constraints_from: usize,
    nodes_from: usize,
    pub length: usize,
}

impl Parts {
    /// A header of version 1 has no D, which means that D is 0.
    pub fn new(header: usize, words: &[u32]) -> Parts {
        let size = |at: usize| if at < header { words[at] as usize } else { 0 };
        let (inputs, latches, gates, nodes, constraints) = (size(0), size(1), size(2), size(3), size(5));
        let gates_from = header + 2 * latches;
        let constraints_from = gates_from + 2 * gates;
        let nodes_from = constraints_from + constraints;
        Parts {
            inputs,
            latches,
            width: inputs + latches + gates,
            latches_from: header,
            gates_from,
            constraints_from,
            nodes_from,
            length: nodes_from + 3 * nodes,
        }
    }

    /// For a word past the header: the refusal that guards it, and its largest value (-1: it has none).
    pub fn guard(&self, words: &[u32], place: usize) -> (u32, i64) {
        let any_literal = 2 * self.width as i64 + 1;
        if place < self.gates_from {
            return if (place - self.latches_from) % 2 == 0 { (4, any_literal) } else { (3, 2) };
        }
        if place < self.constraints_from {
            let own = self.inputs + self.latches + 1 + (place - self.gates_from) / 2;
            return (4, 2 * own as i64 - 1);
        }
        if place < self.nodes_from {
            return (4, any_literal);
        }
        let node = (place - self.nodes_from) / 3;
        let op = words[self.nodes_from + 3 * node];
        let children = CHILDREN.get(op as usize).copied().unwrap_or(0);
        let latest_child = node as i64 - 1;
        let most = match (place - self.nodes_from) % 3 {
            0 => 7,
            1 if op == ATOM => any_literal,
            1 => latest_child,
            _ if children == 2 => latest_child,
            _ => 0,
        };
        (5, most)
    }

    /// Takes words that passed the check apart.
    fn read(&self, words: &[u32]) -> Problem {
        let pairs = |part: &[u32]| part.chunks(2).map(|p| (p[0], p[1])).collect();
        let node = |n: &[u32]| Node { op: n[0], a: n[1] as usize, b: n[2] as usize };
        Problem {
            inputs: self.inputs,
            latches: pairs(&words[self.latches_from..self.gates_from]),
            gates: pairs(&words[self.gates_from..self.constraints_from]),
            constraints: words[self.constraints_from..self.nodes_from].to_vec(),
            nodes: words[self.nodes_from..].chunks(3).map(node).collect(),
            k: words[4] as usize,
        }
    }
}

/// Checks in the fixed order: version, the header's words, limits, length, then every word in order.
pub fn check(version: u32, words: &[u32]) -> Result<Problem, Answer> {
    let header = header(version).ok_or(refused(15, 0))?;
    if words.len() < header {
        return Err(refused(1, words.len()));
    }
    for place in 0..header {
        if words[place] < LEAST[place] || words[place] > MOST[place] {
            return Err(refused(2, place));
        }
    }
    let parts = Parts::new(header, words);
    if words.len() != parts.length {
        return Err(refused(1, words.len()));
    }
    for place in header..words.len() {
        let (number, most) = parts.guard(words, place);
        if i64::from(words[place]) > most {
            return Err(refused(number, place));
        }
    }
    Ok(parts.read(words))
}
