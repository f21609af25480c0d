//! Kinds of networks as they come: ordinary ones of three sizes, and dense ones with large estates.
use harness::inputs::networks::{dense_network, ordinary_network};
use harness::inputs::random::Random;
use harness::plain::network::Network;

#[derive(Clone, Copy)]
pub enum Kind {
    Ordinary(usize),
    Dense,
}

pub const KINDS: [Kind; 4] = [
    Kind::Ordinary(8),
    Kind::Ordinary(16),
    Kind::Ordinary(32),
    Kind::Dense,
];

impl Kind {
    pub fn name(self) -> String {
        match self {
            Kind::Ordinary(n) => format!("ordinary, {n} members"),
            Kind::Dense => "dense, 32 members".to_string(),
        }
    }

    /// How many networks are averaged. Counting what the straightforward engine does takes time
    /// where estates are large.
    pub fn networks(self) -> usize {
        match self {
            Kind::Ordinary(_) => 8,
            Kind::Dense => 2,
        }
    }

    pub fn network(self, random: &mut Random, house: u8) -> Network {
        match self {
            Kind::Ordinary(n) => ordinary_network(random, n, house),
            Kind::Dense => dense_network(random, house),
        }
    }
}
