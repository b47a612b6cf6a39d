//! Measurements: the library beside plain Rust and plain copies, in one run.

pub mod inputs;
pub mod plain;
pub mod processor;
pub mod rounds;
pub mod writing;
