//! scryer-prolog's clause indexing (b7066b41f1): its files as they stand in ../shared/docs/src, over small stand-ins for
//! the rest of that repository, with code, calls and index as document 01's bytes. Input is taken to be acceptable: what
//! document 01 refuses panics here or goes through as the Rust has it. Nothing is ever refused or left unstored.
#![allow(dead_code, unused)]
#![cfg_attr(not(feature = "own-hashbrown"), feature(rustc_private))]

#[cfg(not(feature = "own-hashbrown"))]
extern crate hashbrown; // the compiler's copy

#[macro_use]
mod macros;

// Original text, which no formatter may touch; machine::indexing_scan is the third file, and `instructions` takes over the index's data types.
#[rustfmt::skip]
#[path = "../../../../shared/docs/src/indexing.rs"]
mod indexing;
#[rustfmt::skip]
#[path = "../../../../shared/docs/src/indexing_iter.rs"]
mod indexing_iter;

// Stand-ins.
mod atom_table;
mod forms;
mod instructions;
mod machine;
mod offset_table;
mod parser;
mod types;

// The driver.
mod handed;
mod listing;
mod predicate;
mod reading;

#[cfg(feature = "own-hashbrown")]
pub use hashbrown::hash_table::set_order;
pub use instructions::{ExternalIndexingCodePtr, IndexingLine};
pub use machine::MachineState;
pub use predicate::{Answer, Case, End, PREFIX, Predicate, Settings};
pub use reading::machine;
