//! Makes requests of each kind from a seed.

mod aiger;
mod bare;
mod broken;
mod cases;
pub mod circuits;
pub mod constraints;
mod damage;
mod find;
mod find_limits;
mod jobs;
mod limits;
mod problems;
mod refute;
pub mod shapes;
pub mod text_damage;
mod text_limits;
mod texts;
mod trivial;
mod witnesses;

use crate::random::Random;
use crate::requests::Request;

pub use bare::unsatisfiable;
pub use broken::streams;
pub use cases::{counter, counts, T};
pub use damage::{damaged, Of};
pub use find::subject;
pub use jobs::job_files;
pub use limits::all_limits;
pub use text_limits::largest;
pub use trivial::variants;

/// The requests of a kind. COUNT counts CNFs for `cnf` and `trivial`, problems for `problem`, `witness`,
/// `refute` and `find`, circuits for `aiger`, rounds for `limits`, `cases` and `texts`; for a kind with constraints
/// what it counts for the one without.
pub fn requests(seed: u64, kind: &str, count: usize) -> Option<Vec<Request>> {
    let mut random = Random::new(seed);
    let random = &mut random;
    match kind {
        "cnf" => Some(bare::requests(random, count)),
        "problem" => Some(problems::requests(random, count)),
        "limits" => Some(limits::requests(random, count)),
        "witness" => Some(witnesses::requests(random, count)),
        "cases" => Some(cases::requests(random, count)),
        "refute" => Some(refute::requests(random, count)),
        "find" => Some(find::requests(random, count)),
        "trivial" => Some(trivial::requests(random, count)),
        "aiger" => Some(aiger::requests(random, count)),
        "texts" => Some(texts::requests(random, count)),
        _ => constraints::requests(random, kind, count),
    }
}

/// The bytes of the requests of a kind; for `broken`, COUNT is the number of one stream.
pub fn make(seed: u64, kind: &str, count: usize) -> Option<Vec<u8>> {
    if kind == "broken" {
        return Some(broken::stream(&mut Random::new(seed), count));
    }
    Some(requests(seed, kind, count)?.iter().flat_map(Request::bytes).collect())
}
