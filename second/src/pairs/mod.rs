//! Two traces compared record by record, in two ways that share no more than
//! the lengths of the records and the words of the answer.

pub mod answer;
pub mod changes;
pub mod lent;
mod lies;
pub mod passes;
pub mod tool;
