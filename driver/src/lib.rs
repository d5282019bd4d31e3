//! The functions of crate `boundary_exports` in Rust, and the way between its arrays and the oracle's
//! records.

pub mod boundary;
pub mod records;
