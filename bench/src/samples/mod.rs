//! What the calls are timed on. A seed names it for good.

pub mod circuits;
pub mod refuted;
pub mod searches;
mod solver;
pub mod texts;
