//! Inputs for both sides, each fixed by a seed.
pub mod damage;
pub mod divisions;
pub mod networks;
pub mod random;
pub mod worst;
