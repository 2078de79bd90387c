//! The faults that can be planted between the library and the comparison.

pub mod editions;
pub mod fault;
pub mod idle_lasso;
pub mod layout;
pub mod pairs;
pub mod plans;
pub mod smallest;
pub mod strict;
pub mod sums;
pub mod twice;
pub mod units;
pub mod work;
