//! The library's side: what is lent to it, and what it answers.

pub mod answers;
pub mod marked;
