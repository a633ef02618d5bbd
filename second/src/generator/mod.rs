//! The generator of traces. The moves use its state, and `generate` the moves.

mod aim;
pub mod damage;
mod faults;
pub mod generate;
pub mod growth;
mod moves;
pub mod pairs;
pub mod random;
pub mod setup;
pub mod shape;
mod state;
pub mod style;
mod twists;
mod woven;
