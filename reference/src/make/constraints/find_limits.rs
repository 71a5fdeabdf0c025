//! Call 6 for the kind `constraint-limits`: searches whose constraints leave the last run, or none, among them some of
//! sixteen open bits; and one bit more.

use super::super::find::{every_room, find};
use super::super::find_limits::{all_on, Sizes, ALWAYS, NEVER, ONCE};
use super::limits::MOST_CONSTRAINTS;
use super::shapes::{with, VERSION};
use crate::requests::{Request, WITNESS_BYTES};

/// Eight to ten open bits, as inputs, latches or both, and five in the longest run.
const SHORT: [Sizes; 4] =
    [Sizes(1, 0, 0, 1, 9), Sizes(2, 3, 0, 5, 3), Sizes(1, 9, 4, 10, 4), Sizes(0, 20, 5, 30, 31)];

/// Sixteen open bits.
const LONG: [(Sizes, &[[u32; 3]]); 3] =
    [(Sizes(1, 0, 0, 1, 15), ONCE), (Sizes(2, 3, 0, 5, 7), ALWAYS), (Sizes(1, 9, 8, 10, 7), NEVER)];

const PAST: [Sizes; 2] = [Sizes(1, 0, 0, 1, 16), Sizes(0, 64, 17, 64, 0)];

/// The literal that all open bits are on.
fn all(base: &[u32]) -> u32 {
    2 * (base[0] + base[1] + base[2])
}

pub fn requests(out: &mut Vec<Request>) {
    let room = WITNESS_BYTES as usize;
    for sizes in &SHORT {
        for nodes in [ALWAYS, ONCE, NEVER] {
            let base = all_on(sizes, nodes);
            let (on, off) = (all(&base), all(&base) + 1);
            for constraints in [&[on][..], &[off], &[on, 1, on], &[1, on, off]] {
                out.push(find(VERSION, &with(&base, constraints), room));
            }
        }
    }
    for (sizes, nodes) in &LONG {
        let base = all_on(sizes, nodes);
        out.push(find(VERSION, &with(&base, &[all(&base); MOST_CONSTRAINTS]), room));
    }
    for sizes in &PAST {
        let base = all_on(sizes, ONCE);
        every_room(VERSION, &with(&base, &[0; MOST_CONSTRAINTS]), out);
    }
}
