//! The rules in plain Rust once more, by the algorithm of the engine: close visits only members whose
//! estate has changed, and the unit rule starts from a guess that it checks. Files, refusals and text
//! are those of the straightforward implementation.
mod clearing;
pub mod contest;
mod rules;
pub mod standard;
pub mod tally;
mod unit;

pub use clearing::close;

use crate::plain;
use tally::Uncounted;

/// What clear prints for an input.
pub fn clear(input: &[u8]) -> String {
    plain::clear_by(input, |network| close(network, &mut Uncounted))
}
