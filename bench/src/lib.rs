//! The three calls that answer about a pack, measured against the same
//! algorithm in ordinary Rust.

pub mod inputs;
pub mod lent;
pub mod ordinary;
