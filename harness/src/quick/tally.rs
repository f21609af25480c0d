//! What closing a book is made of.

/// Is told of each piece of work as it is done.
pub trait Tally {
    /// A member is visited, with this estate, and its awards are called for.
    fn visit(&mut self, member: usize, estate: u32);
    /// A round has ended, which may have moved nothing.
    fn round(&mut self);
    /// So many scores were evaluated.
    fn scores(&mut self, scores: usize);
    /// A unit was handed out singly.
    fn step(&mut self);
}

/// Counts nothing, at no cost.
pub struct Uncounted;

impl Tally for Uncounted {
    fn visit(&mut self, _member: usize, _estate: u32) {}
    fn round(&mut self) {}
    fn scores(&mut self, _scores: usize) {}
    fn step(&mut self) {}
}
