//! The judge of a refutation of any CNF: answers 16, 11, 12, 13, 14. Linear in what it reads: a value is the stamp of its step with a
//! sign, so that nothing is cleared between steps.

use super::{answer, Answer, YES};

const MOST_VARIABLES: u32 = 65_535;

pub fn judge(
    variables: u32,
    cnf: &[i32],
    refutation: &[i32],
    by_numbers: &mut [u64],
    by_clauses: &mut [u64],
) -> Answer {
    judged(variables, cnf, refutation, by_numbers, by_clauses).err().unwrap_or(YES)
}

fn judged(
    variables: u32,
    cnf: &[i32],
    refutation: &[i32],
    by_numbers: &mut [u64],
    by_clauses: &mut [u64],
) -> Result<(), Answer> {
    let clauses = count_clauses(variables, cnf)?;
    let steps = count_steps(variables, clauses, refutation)?;
    let (numbers, all) = (variables as usize + 1, clauses + steps);
    let values = by_numbers.get_mut(..numbers).ok_or(answer(12, numbers))?;
    let places = by_clauses.get_mut(..all).ok_or(answer(12, all))?;
    values.fill(0);
    place_clauses(cnf, places);
    let judged = Judge { cnf, refutation, clauses, values, places }.steps();
    values.fill(0);
    places.fill(0);
    judged
}

/// 16: V, then the first bad word, then cut short; else the number of clauses.
fn count_clauses(variables: u32, cnf: &[i32]) -> Result<usize, Answer> {
    if variables > MOST_VARIABLES {
        return Err(answer(16, 0));
    }
    if let Some(bad) = cnf.iter().position(|word| word.unsigned_abs() > variables) {
        return Err(answer(16, bad));
    }
    if cnf.last().is_some_and(|&word| word != 0) {
        return Err(answer(16, cnf.len()));
    }
    Ok(cnf.iter().filter(|&&word| word == 0).count())
}

/// 11: the first bad word, then cut short; else the number of steps.
fn count_steps(variables: u32, clauses: usize, refutation: &[i32]) -> Result<usize, Answer> {
    let mut own = clauses + 1;
    let mut in_hints = false;
    for (place, &word) in refutation.iter().enumerate() {
        if word == 0 {
            own += usize::from(in_hints);
            in_hints = !in_hints;
        } else if in_hints {
            if word < 0 || word as usize >= own {
                return Err(answer(11, place));
            }
        } else if word.unsigned_abs() > variables {
            return Err(answer(11, place));
        }
    }
    if in_hints || refutation.last().is_some_and(|&word| word != 0) {
        return Err(answer(11, refutation.len()));
    }
    Ok(own - 1 - clauses)
}

/// Writes down where each clause of the CNF begins.
fn place_clauses(cnf: &[i32], places: &mut [u64]) {
    let mut from = 0;
    let ends = cnf.iter().enumerate().filter(|&(_, &word)| word == 0);
    for (place, (end, _)) in places.iter_mut().zip(ends) {
        *place = from;
        from = end as u64 + 1;
    }
}

/// What a hint's clause gives under the values so far.
enum Found {
    Conflict,
    Unit(i32),
    Neither,
}

struct Judge<'a> {
    cnf: &'a [i32],
    refutation: &'a [i32],
    clauses: usize,
    values: &'a mut [u64],
    places: &'a mut [u64],
}

/// What the word of a literal's variable holds where the literal is true.
fn mark(stamp: u64, literal: i32) -> u64 {
    2 * stamp + u64::from(literal > 0)
}

fn variable(literal: i32) -> usize {
    literal.unsigned_abs() as usize
}

impl Judge<'_> {
    /// Sets the literals of a clause false and says how many there are; none where a variable has both signs.
    fn set_false(&mut self, stamp: u64, words: &[i32]) -> Option<usize> {
        for (n, &literal) in words.iter().enumerate() {
            if literal == 0 {
                return Some(n);
            }
            let value = &mut self.values[variable(literal)];
            if *value == mark(stamp, literal) {
                return None;
            }
            *value = mark(stamp, -literal);
        }
        None
    }

    fn find(&self, stamp: u64, number: usize) -> Found {
        let from = self.places[number - 1] as usize;
        let words = if number <= self.clauses { &self.cnf[from..] } else { &self.refutation[from..] };
        let mut unit = 0;
        for &literal in words {
            if literal == 0 {
                break;
            }
            let value = self.values[variable(literal)];
            if value == mark(stamp, -literal) {
                continue;
            }
            if value == mark(stamp, literal) || (unit != 0 && unit != literal) {
                return Found::Neither;
            }
            unit = literal;
        }
        if unit == 0 {
            Found::Conflict
        } else {
            Found::Unit(unit)
        }
    }

    /// How many hints a step has, if it is accepted.
    fn follows(&mut self, stamp: u64, hints: &[i32]) -> Option<usize> {
        for (n, &hint) in hints.iter().enumerate() {
            if hint == 0 {
                return None;
            }
            match self.find(stamp, hint as usize) {
                Found::Conflict => return (hints[n + 1] == 0).then_some(n + 1),
                Found::Unit(literal) => self.values[variable(literal)] = mark(stamp, literal),
                Found::Neither => return None,
            }
        }
        None
    }

    /// How many literals and hints the step at the start of the words has, if it is accepted. One that is trivially true has no hints.
    fn accepted(&mut self, stamp: u64, words: &[i32]) -> Option<(usize, usize)> {
        let Some(literals) = self.set_false(stamp, words) else {
            let literals = words.iter().position(|&word| word == 0)?;
            return (words[literals + 1] == 0).then_some((literals, 0));
        };
        let hints = self.follows(stamp, &words[literals + 1..])?;
        Some((literals, hints))
    }

    /// 13 and 14: the steps one after the other.
    fn steps(&mut self) -> Result<(), Answer> {
        let mut done = 0;
        let mut closed = false;
        let mut rest = self.refutation;
        while !rest.is_empty() {
            let stamp = done as u64 + 1;
            let Some((literals, hints)) = self.accepted(stamp, rest) else {
                return Err(answer(13, done));
            };
            self.places[self.clauses + done] = (self.refutation.len() - rest.len()) as u64;
            rest = &rest[literals + hints + 2..];
            closed = literals == 0;
            done += 1;
        }
        if closed {
            Ok(())
        } else {
            Err(answer(14, done))
        }
    }
}
