//! Requests, and their bytes.

use std::io::{self, ErrorKind, Read};

/// Capacities: a count above its own is `too long`.
pub const PROBLEM_WORDS: u32 = 4_096;
pub const WITNESS_BYTES: u32 = 8_192;
pub const CNF_WORDS: u32 = 65_536;
pub const REFUTATION_WORDS: u32 = 65_536;
pub const AREA_WORDS: u32 = 66_000;
pub const CIRCUIT_WORDS: u32 = 4_096;
pub const TEXT_BYTES: u32 = 262_144;

#[derive(Clone, Debug)]
pub enum Request {
    Check {
        version: u32,
        problem: Vec<u32>,
    },
    Cnf {
        version: u32,
        problem: Vec<u32>,
        room: u32,
    },
    Witness {
        version: u32,
        problem: Vec<u32>,
        witness: Vec<u8>,
    },
    Bare {
        variables: u32,
        cnf: Vec<i32>,
        refutation: Vec<i32>,
        by_numbers: u32,
        by_clauses: u32,
    },
    Refutation {
        version: u32,
        problem: Vec<u32>,
        refutation: Vec<i32>,
        room: u32,
        by_numbers: u32,
        by_clauses: u32,
    },
    Find {
        version: u32,
        problem: Vec<u32>,
        room: u32,
    },
    /// The number of the last two means nothing.
    ReadAiger {
        number: u32,
        text: Vec<u8>,
        room: u32,
    },
    WriteAiger {
        number: u32,
        words: Vec<u32>,
        room: u32,
    },
}

/// Why a stream of requests ends before its end.
pub enum Fault {
    TooLong,
    CutShort,
    Io(io::Error),
}

impl From<io::Error> for Fault {
    fn from(error: io::Error) -> Fault {
        match error.kind() {
            ErrorKind::UnexpectedEof => Fault::CutShort,
            _ => Fault::Io(error),
        }
    }
}

fn put_bytes(out: &mut Vec<u8>, bytes: &[u8]) {
    out.extend((bytes.len() as u32).to_be_bytes());
    out.extend(bytes);
}

fn put_words(out: &mut Vec<u8>, words: impl ExactSizeIterator<Item = u32>) {
    out.extend((words.len() as u32).to_be_bytes());
    out.extend(words.flat_map(|word| word.to_be_bytes()));
}

impl Request {
    /// The byte for the call, and the number that comes with it.
    pub fn call(&self) -> (u8, u32) {
        match *self {
            Request::Check { version, .. } => (1, version),
            Request::Cnf { version, .. } => (2, version),
            Request::Witness { version, .. } => (3, version),
            Request::Bare { variables, .. } => (4, variables),
            Request::Refutation { version, .. } => (5, version),
            Request::Find { version, .. } => (6, version),
            Request::ReadAiger { number, .. } => (7, number),
            Request::WriteAiger { number, .. } => (8, number),
        }
    }

    /// The version and the words of a request about a problem.
    pub fn problem_mut(&mut self) -> Option<(&mut u32, &mut Vec<u32>)> {
        match self {
            Request::Check { version, problem }
            | Request::Cnf { version, problem, .. }
            | Request::Witness { version, problem, .. }
            | Request::Refutation { version, problem, .. }
            | Request::Find { version, problem, .. } => Some((version, problem)),
            Request::Bare { .. } | Request::ReadAiger { .. } | Request::WriteAiger { .. } => None,
        }
    }

    pub fn bytes(&self) -> Vec<u8> {
        let (call, number) = self.call();
        let mut out = vec![call];
        out.extend(number.to_be_bytes());
        let mut counts = Vec::new();
        match self {
            Request::Check { problem, .. } => put_words(&mut out, problem.iter().copied()),
            Request::Cnf { problem, room, .. } | Request::Find { problem, room, .. } => {
                put_words(&mut out, problem.iter().copied());
                counts.push(*room);
            }
            Request::Witness { problem, witness, .. } => {
                put_words(&mut out, problem.iter().copied());
                put_bytes(&mut out, witness);
            }
            Request::Bare { cnf, refutation, by_numbers, by_clauses, .. } => {
                put_words(&mut out, cnf.iter().map(|&word| word as u32));
                put_words(&mut out, refutation.iter().map(|&word| word as u32));
                counts.extend([*by_numbers, *by_clauses]);
            }
            Request::Refutation { problem, refutation, room, by_numbers, by_clauses, .. } => {
                put_words(&mut out, problem.iter().copied());
                put_words(&mut out, refutation.iter().map(|&word| word as u32));
                counts.extend([*room, *by_numbers, *by_clauses]);
            }
            Request::ReadAiger { text, room, .. } => {
                put_bytes(&mut out, text);
                counts.push(*room);
            }
            Request::WriteAiger { words, room, .. } => {
                put_words(&mut out, words.iter().copied());
                counts.push(*room);
            }
        }
        out.extend(counts.iter().flat_map(|count| count.to_be_bytes()));
        out
    }
}

fn number(input: &mut impl Read) -> Result<u32, Fault> {
    let mut bytes = [0; 4];
    input.read_exact(&mut bytes)?;
    Ok(u32::from_be_bytes(bytes))
}

fn count(input: &mut impl Read, most: u32) -> Result<u32, Fault> {
    let count = number(input)?;
    if count > most {
        return Err(Fault::TooLong);
    }
    Ok(count)
}

fn items(input: &mut impl Read, most: u32) -> Result<Vec<u8>, Fault> {
    let mut bytes = vec![0; count(input, most)? as usize];
    input.read_exact(&mut bytes)?;
    Ok(bytes)
}

fn words(input: &mut impl Read, most: u32) -> Result<Vec<u32>, Fault> {
    let mut bytes = vec![0; 4 * count(input, most)? as usize];
    input.read_exact(&mut bytes)?;
    Ok(bytes.chunks(4).map(|b| u32::from_be_bytes([b[0], b[1], b[2], b[3]])).collect())
}

fn signed(input: &mut impl Read, most: u32) -> Result<Vec<i32>, Fault> {
    Ok(words(input, most)?.into_iter().map(|word| word as i32).collect())
}

/// The rest of a request that begins with problem words.
fn about_problem(call: u8, version: u32, input: &mut impl Read) -> Result<Request, Fault> {
    let problem = words(input, PROBLEM_WORDS)?;
    Ok(match call {
        1 => Request::Check { version, problem },
        2 => Request::Cnf { version, problem, room: count(input, CNF_WORDS)? },
        3 => Request::Witness { version, problem, witness: items(input, WITNESS_BYTES)? },
        5 => Request::Refutation {
            version,
            problem,
            refutation: signed(input, REFUTATION_WORDS)?,
            room: count(input, CNF_WORDS)?,
            by_numbers: count(input, AREA_WORDS)?,
            by_clauses: count(input, AREA_WORDS)?,
        },
        _ => Request::Find { version, problem, room: count(input, WITNESS_BYTES)? },
    })
}

/// The next request, or None at the end of the input.
pub fn read(input: &mut impl Read) -> Result<Option<Request>, Fault> {
    let mut call = [0];
    if input.read(&mut call)? == 0 {
        return Ok(None);
    }
    // A call that there is not is told like a request that the input ends in.
    if !(1..=8).contains(&call[0]) {
        return Err(Fault::CutShort);
    }
    let number = number(input)?;
    Ok(Some(match call[0] {
        4 => Request::Bare {
            variables: number,
            cnf: signed(input, CNF_WORDS)?,
            refutation: signed(input, REFUTATION_WORDS)?,
            by_numbers: count(input, AREA_WORDS)?,
            by_clauses: count(input, AREA_WORDS)?,
        },
        7 => {
            let text = items(input, TEXT_BYTES)?;
            Request::ReadAiger { number, text, room: count(input, CIRCUIT_WORDS)? }
        }
        8 => {
            let words = words(input, CIRCUIT_WORDS)?;
            Request::WriteAiger { number, words, room: count(input, TEXT_BYTES)? }
        }
        about => about_problem(about, number, input)?,
    }))
}
