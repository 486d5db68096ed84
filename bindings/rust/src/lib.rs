//! Register facts of a routing script, from the proved library `libvo_facts.a`.
//!
//! A loader makes [`Buffers`] for a sheet, exactly as long as [`Room::for_sheet`] tells, calls [`Buffers::analyze`] and
//! reads the [`Facts`]:
//!
//! ```
//! use vo_facts::{Budget, Buffers, ConstantFact};
//!
//! # let sheet = include_bytes!("../../../examples/worked.sheet");
//! let mut buffers = Buffers::for_sheet(sheet, 1 << 30)?;
//! let facts = buffers.analyze(sheet, Budget::FRESH)?;
//! assert_eq!(facts.constant.fact_for_slot(1, 0)?, Some(ConstantFact::Int(7)));
//! assert_eq!(facts.constant.fact_for_slot(3, 0)?, Some(ConstantFact::Conflict));
//! # Ok::<(), Box<dyn std::error::Error>>(())
//! ```
//!
//! README.md has a loader that keeps its buffers and grants each script a part of them, and one that compares container
//! facts, which have no `==`: they carry the layout numbers that the sheet stores, and equal layouts may have different
//! ones.
//!
//! A caller with memory of its own lends it as [`Lent`] to [`analyze`]. [`raw`] has the C constants and functions as they
//! are.
//!
//! A sheet is one script in a form of bytes that `docs/FORMAT.md` of the repository gives, with all that a call is lent
//! and answers; `docs/USING.md` tells what the facts mean. "Document 01" is the contract of the project, which is not
//! part of the repository, and "question" one of its numbered questions: `docs/FORMAT.md` says what each one asks.

/// The examples of README.md, which `cargo test` compiles and runs.
#[cfg(doctest)]
#[doc = include_str!("../README.md")]
mod readme {}

mod answer;
mod buffers;
mod facts;
mod lent;
pub mod raw;
mod room;

pub use answer::{Analyzed, Budget, Counts, Refusal, Refused, Stage};
pub use buffers::{Buffers, Facts, TooLarge};
pub use facts::{
    lowest_layout, ConstantFact, Constants, ContainerFact, Containers, Damaged, IndexCheckFact, IndexChecks,
    NotCompared, Table,
};
pub use lent::{analyze, Lent, Output};
pub use room::Room;
