//! What is seen of a replay: the events that it reaches, their counts, the sums of
//! demand 3, and whether each question is answered as its submission.

pub mod asks;
pub mod census;
pub mod events;
mod flushes;
pub mod ledger;
pub mod observe;
mod questions;
mod shares;
