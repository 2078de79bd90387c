//! What the sheets promise to cover: cases are counted by kind, and each promised kind needs enough.

pub mod alike;
pub mod editions;
pub mod plans;
pub mod promised_editions;
pub mod strict;
pub mod sums;
pub mod tally;
pub mod work;
