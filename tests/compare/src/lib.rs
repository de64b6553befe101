//! The proved calls and the second program, compared on the same inputs.

pub mod buffers;
pub mod calls;
pub mod check;
pub mod command;
pub mod driver;
pub mod inputs;
pub mod lent;
pub mod limits;
pub mod memory;
pub mod tally;

#[cfg(test)]
mod model;
#[cfg(test)]
mod tests;
