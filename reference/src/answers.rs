//! The answers to requests, and the buffers after each call.

use crate::problem::{check, yes, Answer, Problem};
use crate::requests::{read, Fault, Request};
use crate::{aiger, cnf, finder, refutation, witness};
use std::collections::BTreeMap;
use std::io::{self, Read, Write};

/// What a buffer that a call may write holds before the call.
const FILL: u8 = 7;

/// A call's answer and its written buffers, as they are after the call.
pub struct Reply {
    pub answer: Answer,
    pub buffers: Vec<Vec<i64>>,
}

fn filled<T: Clone + From<u8>>(count: u32) -> Vec<T> {
    vec![T::from(FILL); count as usize]
}

fn shown<T: Copy + Into<i64>>(room: &[T]) -> Vec<i64> {
    room.iter().map(|&word| word.into()).collect()
}

fn shown_area(area: &[u64]) -> Vec<i64> {
    area.iter().map(|&word| i64::try_from(word).expect("a work word is 0 or 7")).collect()
}

/// Judges a refutation of the CNF of problem words; the room holds the CNF at 0, 13 and 14 alone.
pub fn judge_problem_refutation(
    version: u32,
    problem: &[u32],
    refutation: &[i32],
    room: &mut [i32],
    by_numbers: &mut [u64],
    by_clauses: &mut [u64],
) -> Answer {
    let problem = match check(version, problem) {
        Ok(problem) => problem,
        Err(answer) => return answer,
    };
    let mut written = room.to_vec();
    let answer = cnf::write(&problem, &mut written);
    if answer.number != 0 {
        return answer;
    }
    let clauses = cnf::clauses(&written[..answer.place]);
    let variables = cnf::variables(&problem);
    let answer = refutation::judge(variables, &clauses, refutation, by_numbers, by_clauses);
    if matches!(answer.number, 0 | 13 | 14) {
        room.copy_from_slice(&written);
    }
    answer
}

/// What is asked of a problem, if its words pass the check.
fn checked(version: u32, words: &[u32], asked: impl FnOnce(&Problem) -> Answer) -> Answer {
    check(version, words).map_or_else(|no| no, |problem| asked(&problem))
}

fn without_room(answer: Answer) -> Reply {
    Reply { answer, buffers: vec![] }
}

/// A call that may write one room.
fn in_room<T: Copy + From<u8> + Into<i64>>(count: u32, call: impl FnOnce(&mut [T]) -> Answer) -> Reply {
    let mut room = filled(count);
    let answer = call(&mut room);
    Reply { answer, buffers: vec![shown(&room)] }
}

pub fn reply(request: &Request) -> Reply {
    match request {
        Request::Check { version, problem } => without_room(checked(*version, problem, |_| yes(0))),
        Request::Cnf { version, problem, room } => {
            in_room(*room, |room| checked(*version, problem, |problem| cnf::write(problem, room)))
        }
        Request::Witness { version, problem, witness } => {
            without_room(checked(*version, problem, |problem| witness::judge(problem, witness)))
        }
        Request::Bare { variables, cnf, refutation, by_numbers, by_clauses } => {
            let (mut first, mut second) = (filled(*by_numbers), filled(*by_clauses));
            let answer = refutation::judge_bare(*variables, cnf, refutation, &mut first, &mut second);
            Reply { answer, buffers: vec![shown_area(&first), shown_area(&second)] }
        }
        Request::Refutation { version, problem, refutation, room: count, by_numbers, by_clauses } => {
            let mut room = filled(*count);
            let (mut first, mut second) = (filled(*by_numbers), filled(*by_clauses));
            let answer =
                judge_problem_refutation(*version, problem, refutation, &mut room, &mut first, &mut second);
            let buffers = vec![shown(&room), shown_area(&first), shown_area(&second)];
            Reply { answer, buffers }
        }
        Request::Find { version, problem, room } => {
            in_room(*room, |room| checked(*version, problem, |problem| finder::find(problem, room)))
        }
        Request::ReadAiger { text, room, .. } => in_room(*room, |room| aiger::read(text, room)),
        Request::WriteAiger { words, room, .. } => in_room(*room, |room| aiger::write(words, room)),
    }
}

fn print(reply: &Reply, out: &mut impl Write) -> io::Result<()> {
    writeln!(out, "{} {}", reply.answer.number, reply.answer.place)?;
    for buffer in &reply.buffers {
        for (n, word) in buffer.iter().enumerate() {
            if n > 0 {
                out.write_all(b" ")?;
            }
            write!(out, "{word}")?;
        }
        out.write_all(b"\n")?;
    }
    Ok(())
}

/// A call, its answer and, of a witness found, the first byte.
pub type Sort = (u8, u32, Option<i64>);

/// The places with which each call gives each answer, one for each time.
pub fn tally(requests: &[Request]) -> BTreeMap<Sort, Vec<usize>> {
    let mut places: BTreeMap<Sort, Vec<usize>> = BTreeMap::new();
    for request in requests {
        let (call, reply) = (request.call().0, reply(request));
        let number = reply.answer.number;
        let found = if (call, number) == (6, 0) { Some(reply.buffers[0][0]) } else { None };
        places.entry((call, number, found)).or_default().push(reply.answer.place);
    }
    places
}

/// Answers every request of the input, up to its end or its first fault.
pub fn answer_all(input: &mut impl Read, out: &mut impl Write) -> Result<(), String> {
    loop {
        let failed = |error: io::Error| error.to_string();
        match read(input) {
            Ok(None) => return Ok(()),
            Ok(Some(request)) => print(&reply(&request), out).map_err(failed)?,
            Err(Fault::TooLong) => return writeln!(out, "too long").map_err(failed),
            Err(Fault::CutShort) => return writeln!(out, "cut short").map_err(failed),
            Err(Fault::Io(error)) => return Err(error.to_string()),
        }
    }
}

/// The first lines of an answer, shortened for reading.
fn shortened(answer: &[u8]) -> String {
    let text = String::from_utf8_lossy(answer);
    let line = |line: &str| line.chars().take(300).collect::<String>();
    text.lines().take(4).map(line).collect::<Vec<String>>().join("\n  ")
}

/// The first request that other answers answer in another way than this program.
pub fn first_difference(input: &mut impl Read, mut theirs: &[u8]) -> Option<String> {
    let mut number = 0;
    while let Ok(Some(request)) = read(input) {
        let mut ours = Vec::new();
        print(&reply(&request), &mut ours).expect("memory takes all");
        if !theirs.starts_with(&ours) {
            let asked: String = format!("{request:?}").chars().take(6_000).collect();
            let (ours, theirs) = (shortened(&ours), shortened(theirs));
            return Some(format!("request {number}: {asked}\nhere:\n  {ours}\nthere:\n  {theirs}"));
        }
        theirs = &theirs[ours.len()..];
        number += 1;
    }
    None
}
