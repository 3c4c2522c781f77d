//! Traces: their records, and the listing that the published Rust gives for them.

pub mod listing;
pub mod records;
pub mod stream;
