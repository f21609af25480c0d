//! Estates to be divided.
use super::networks::any_network;
use super::random::Random;
use crate::plain::network::Network;

pub struct Division {
    /// whose members have the creditors' classes
    pub network: Network,
    pub house: u8,
    pub estate: u32,
    pub claims: Vec<u32>,
    /// the places of the buffer
    pub room: usize,
}

/// A division among up to 33 creditors. In some the list or the buffer is refused.
pub fn any_division(random: &mut Random) -> Division {
    let network = any_network(random);
    let most = random.pick(&[3, 8, 33]);
    let length = random.below(most + 1);
    let largest = random.pick(&[1, 6, 30, 100]);
    let mut claims: Vec<u32> = (0..length).map(|_| random.within(0..=largest)).collect();
    if length > 0 && random.one_in(8) {
        claims[random.below(length)] = random.pick(&[9_999, 10_000, 10_001, u32::MAX]);
    }
    let total = claims
        .iter()
        .fold(0, |sum: u32, claim| sum.saturating_add(*claim));
    let estate = if random.one_in(10) {
        u32::MAX
    } else {
        random.within(0..=total.min(20_000))
    };
    let room = if random.one_in(10) {
        random.below(34)
    } else {
        length
    };
    Division {
        network,
        house: random.below(6) as u8,
        estate,
        claims,
        room,
    }
}
