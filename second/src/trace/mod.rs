//! Traces: their records, how they are read, and their replay on the engine.

pub mod record;
pub mod replay;
pub mod stream;
