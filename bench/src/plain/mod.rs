//! The checker's jobs in plain Rust, each as a good engineer writes it: nothing is copied that can be lent, nothing is allocated in a
//! loop, and a value that a coin decides is worked out without a branch.

pub mod aiger;
pub mod cnf;
pub mod counts;
pub mod finder;
pub mod problem;
pub mod refutation;
pub mod witness;

/// The paper's number of an answer and its place.
#[derive(Clone, Copy, PartialEq, Eq, Debug)]
pub struct Answer {
    pub number: u32,
    pub place: usize,
}

pub const YES: Answer = Answer { number: 0, place: 0 };

pub fn answer(number: u32, place: usize) -> Answer {
    Answer { number, place }
}
