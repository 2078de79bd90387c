//! The specification, read independently: sheets, nodes, steps, and what each call has to answer.

pub mod edition;
pub mod expected;
pub mod explore;
pub mod fields;
pub mod region;
pub mod sheet;
pub mod strict;
pub mod write;
