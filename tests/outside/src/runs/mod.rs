//! Runs in nths, and the pairs of a work plan as such a run.

pub mod in_nths;
pub mod replay;
pub mod turned;
