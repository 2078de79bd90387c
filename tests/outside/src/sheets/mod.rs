//! The sheets that are made, by their seeds: random ones, ones built to a plan, and damaged ones.

pub mod built;
pub mod damage;
pub mod exact;
pub mod generate;
pub mod idle;
pub mod kinds;
pub mod shapes;
pub mod small;
pub mod strict;
pub mod twice;
pub mod variants;
