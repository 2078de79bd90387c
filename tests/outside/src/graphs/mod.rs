//! Graphs of priced arcs, which know nothing of sheets: cycles, least weights, questions 13 and 14.

pub mod cyclic;
pub mod questions;
pub mod weights;
