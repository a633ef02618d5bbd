//! Traces as text: one record a line, its numbers in the record's order.

pub mod assemble;
pub mod files;
mod line;
pub mod list;
mod terminal;
pub mod tool;
