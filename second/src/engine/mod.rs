//! The rules of document 01, and of what is built of document 02, on numbers and
//! nodes. Nothing here knows of traces.

mod base;
pub mod clock;
pub mod controller;
pub mod cost;
mod flush;
pub mod leaf;
mod lies;
pub mod numbers;
pub mod question;
pub mod refusal;
pub mod rules;
pub mod shares;
pub mod tree;
mod weight;
