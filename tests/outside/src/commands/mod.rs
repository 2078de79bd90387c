//! The commands of the program, and the words after its name.

pub mod arguments;
pub mod cases;
pub mod graphs;
pub mod nths;
pub mod program;
pub mod sheets;
