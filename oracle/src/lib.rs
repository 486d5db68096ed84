//! The functions that document 01 lists, compiled from the Rust's own text and run on sheets.
//!
//! `Sheet::load` asks questions 1 to 5, `analyze` is the Rust alone, `answer` adds what the observers see.

mod answer;
mod corners;
pub mod draft;
pub mod expect;
pub mod generate;
pub mod inputs;
mod listing;
mod outside;
pub mod replay;
mod sheet;
mod verifier;

// The cut text names this path.
use outside::instruction_effects;

pub use answer::{answer, answer_and_facts, record, request, Answer, Budget, Closed, Outcome, Table, NAMES};
pub use corners::corners;
pub use listing::listing;
pub use sheet::{Sheet, LIMITS};
pub use verifier::{analyze, fresh, sizes, successors, until_closed, until_ended, Facts, Spent};
