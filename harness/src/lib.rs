//! The proved engine as it is and as it was before, two implementations of its rules in plain Rust,
//! and inputs for all of them.
pub mod before;
pub mod engine;
pub mod inputs;
pub mod plain;
pub mod quick;
