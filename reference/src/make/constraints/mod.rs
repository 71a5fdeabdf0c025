//! Requests about problems with constraints, version 2.

pub mod cases;
mod find;
mod find_limits;
mod jobs;
mod limits;
mod long_runs;
mod problems;
mod refute;
pub mod shapes;
mod witnesses;

use crate::random::Random;
use crate::requests::Request;

pub use find::subject as sought;
pub use jobs::job_files;
pub use limits::largest;
pub use problems::twins;
pub use witnesses::subject as judged;

/// The requests of a kind.
pub fn requests(random: &mut Random, kind: &str, count: usize) -> Option<Vec<Request>> {
    match kind {
        "constraints" => Some(problems::requests(random, count)),
        "constraint-limits" => Some(limits::requests(random, count)),
        "constraint-witness" => Some(witnesses::requests(random, count)),
        "constraint-cases" => Some(cases::requests(random, count)),
        "constraint-refute" => Some(refute::requests(random, count)),
        "constraint-find" => Some(find::requests(random, count)),
        _ => None,
    }
}
