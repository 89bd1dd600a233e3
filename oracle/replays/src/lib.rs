//! Inputs of the programs `lines` and `walks`, what the programs print of them, and the stored replays. See ../README.md.
#[cfg(feature = "rust")]
pub mod beside;
pub mod inputs;
mod keys;
pub mod printed;
pub mod same;
pub mod stored;
