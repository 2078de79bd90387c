//! Sheets as text and as bytes; plans shown, drawn, certified and checked.

pub mod batch;
pub mod certificate;
pub mod commands;
pub mod fraction;
pub mod input;
pub mod json;
pub mod nodes;
pub mod output;
pub mod picture;
pub mod plan;
pub mod reasons;
pub mod run;
pub mod schedule;
pub mod sheet;
pub mod source;
pub mod stop;
pub mod text;
pub mod usage;
pub mod walk;
pub mod words;
