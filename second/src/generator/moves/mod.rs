//! The moves of generated traces, by their aim.

pub mod asks;
pub mod clock;
pub mod debt;
pub mod donation;
pub mod flush;
pub mod load;
pub mod shares;
pub mod usual;
pub mod weight;
