//! The comparison with another program, and what it is made of.

pub mod against;
pub mod cases;
pub mod compare;
pub mod expose;
mod memory;
mod pair;
pub mod pairs;
mod questions;
pub mod robust;
mod samples;
pub mod tally;
mod watch;
