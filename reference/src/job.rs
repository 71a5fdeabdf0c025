//! The job file (answer 15) and what the program prints for it.

use crate::cnf;
use crate::problem::{check, header, refused, Answer};

pub const MOST_BYTES: usize = 16_384;
pub const PROGRAM_ROOM: usize = 8_192;

fn big_endian(bytes: &[u8]) -> u32 {
    bytes.iter().fold(0, |sum, &byte| sum << 8 | u32::from(byte))
}

/// The version and the problem words of a job file. Of a longer file at least one byte past the limit must be given.
fn read(bytes: &[u8]) -> Result<(u32, Vec<u32>), Answer> {
    if bytes.len() > MOST_BYTES {
        return Err(refused(15, MOST_BYTES));
    }
    if bytes.len() < 5 {
        return Err(refused(15, bytes.len()));
    }
    let version = u32::from(bytes[0]);
    if header(version).is_none() {
        return Err(refused(15, 0));
    }
    let (length, rest) = (big_endian(&bytes[1..5]), &bytes[5..]);
    if length as usize != rest.len() || length % 4 != 0 {
        return Err(refused(15, 1));
    }
    Ok((version, rest.chunks(4).map(big_endian).collect()))
}

/// A job file of these words.
pub fn file(version: u8, words: &[u32]) -> Vec<u8> {
    let mut bytes = vec![version];
    bytes.extend((4 * words.len() as u32).to_be_bytes());
    bytes.extend(words.iter().flat_map(|word| word.to_be_bytes()));
    bytes
}

fn cnf_text(bytes: &[u8]) -> Result<String, Answer> {
    let (version, words) = read(bytes)?;
    let problem = check(version, &words)?;
    let mut room = vec![0; PROGRAM_ROOM];
    let answer = cnf::write(&problem, &mut room);
    if answer.number != 0 {
        return Err(answer);
    }
    let clauses = cnf::clauses(&room[..answer.place]);
    let mut text = format!("p cnf {} {}\n", cnf::variables(&problem), clauses.len());
    for clause in clauses {
        for literal in clause {
            text.push_str(&format!("{literal} "));
        }
        text.push_str("0\n");
    }
    Ok(text)
}

/// Everything that the program prints for a job file.
pub fn text(bytes: &[u8]) -> String {
    match cnf_text(bytes) {
        Ok(text) => text,
        Err(answer) => format!("refused {} at {}\n", answer.number, answer.place),
    }
}
