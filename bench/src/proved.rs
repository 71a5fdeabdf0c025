//! The proved calls, by the same names and parameters as the plain ones.

use crate::plain::counts::Counts;
use crate::plain::{answer, Answer};

// As bench/calls.rt.in has them: a slice is a pointer and a length.
extern "C" {
    fn calls_check_problem(
        version: u32,
        words: *const u32,
        words_len: usize,
        variables: *mut u64,
        clauses: *mut u64,
        size: *mut u64,
        place: *mut u64,
    ) -> u32;

    fn calls_judge_witness(
        version: u32,
        words: *const u32,
        words_len: usize,
        witness: *const u8,
        witness_len: usize,
        place: *mut u64,
    ) -> u32;

    fn calls_write_cnf(
        version: u32,
        words: *const u32,
        words_len: usize,
        room: *mut i32,
        room_len: usize,
        place: *mut u64,
    ) -> u32;

    fn calls_judge_refutation(
        variables: u32,
        cnf: *const i32,
        cnf_len: usize,
        refutation: *const i32,
        refutation_len: usize,
        by_numbers: *mut u64,
        by_numbers_len: usize,
        by_clauses: *mut u64,
        by_clauses_len: usize,
        place: *mut u64,
    ) -> u32;

    fn calls_find(
        version: u32,
        words: *const u32,
        words_len: usize,
        room: *mut u8,
        room_len: usize,
        place: *mut u64,
    ) -> u32;

    fn calls_read_circuit(
        text: *const u8,
        text_len: usize,
        room: *mut u32,
        room_len: usize,
        place: *mut u64,
    ) -> u32;

    fn calls_write_circuit(
        words: *const u32,
        words_len: usize,
        room: *mut u8,
        room_len: usize,
        place: *mut u64,
    ) -> u32;
}

pub fn check_problem(version: u32, words: &[u32]) -> (Answer, Counts) {
    let (mut v, mut c, mut s, mut place) = (0, 0, 0, 0);
    let w = words;
    // SAFETY: no call has a `requires`; each pointer and length are those of a slice that outlives the call.
    let number =
        unsafe { calls_check_problem(version, w.as_ptr(), w.len(), &mut v, &mut c, &mut s, &mut place) };
    let [variables, clauses, words] = [v, c, s].map(|number| number as usize);
    (answer(number, place as usize), Counts { variables, clauses, words })
}

pub fn judge_witness(version: u32, words: &[u32], witness: &[u8]) -> Answer {
    let mut place = 0;
    let (w, b) = (words, witness);
    // SAFETY: as above.
    let number =
        unsafe { calls_judge_witness(version, w.as_ptr(), w.len(), b.as_ptr(), b.len(), &mut place) };
    answer(number, place as usize)
}

pub fn write_cnf(version: u32, words: &[u32], room: &mut [i32]) -> Answer {
    let mut place = 0;
    let (w, r) = (words, room);
    // SAFETY: as above; the room is lent for the call alone.
    let number =
        unsafe { calls_write_cnf(version, w.as_ptr(), w.len(), r.as_mut_ptr(), r.len(), &mut place) };
    answer(number, place as usize)
}

pub fn judge_refutation(
    variables: u32,
    cnf: &[i32],
    refutation: &[i32],
    by_numbers: &mut [u64],
    by_clauses: &mut [u64],
) -> Answer {
    let mut place = 0;
    // SAFETY: as above; both areas are lent for the call alone.
    let number = unsafe {
        calls_judge_refutation(
            variables,
            cnf.as_ptr(),
            cnf.len(),
            refutation.as_ptr(),
            refutation.len(),
            by_numbers.as_mut_ptr(),
            by_numbers.len(),
            by_clauses.as_mut_ptr(),
            by_clauses.len(),
            &mut place,
        )
    };
    answer(number, place as usize)
}

pub fn find(version: u32, words: &[u32], room: &mut [u8]) -> Answer {
    let mut place = 0;
    let (w, r) = (words, room);
    // SAFETY: as above; the room is lent for the call alone.
    let number = unsafe { calls_find(version, w.as_ptr(), w.len(), r.as_mut_ptr(), r.len(), &mut place) };
    answer(number, place as usize)
}

pub fn read_circuit(text: &[u8], room: &mut [u32]) -> Answer {
    let mut place = 0;
    let (t, r) = (text, room);
    // SAFETY: as above; the room is lent for the call alone.
    let number = unsafe { calls_read_circuit(t.as_ptr(), t.len(), r.as_mut_ptr(), r.len(), &mut place) };
    answer(number, place as usize)
}

pub fn write_circuit(words: &[u32], room: &mut [u8]) -> Answer {
    let mut place = 0;
    let (w, r) = (words, room);
    // SAFETY: as above; the room is lent for the call alone.
    let number = unsafe { calls_write_circuit(w.as_ptr(), w.len(), r.as_mut_ptr(), r.len(), &mut place) };
    answer(number, place as usize)
}
