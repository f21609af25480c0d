//! The ring's rulebook.
use super::fault::{Fault, Layer, NOBODY};
use super::network::{HIGHEST_CLASS, LARGEST_CLAIM, MOST_MEMBERS, Network};

/// The rules of the houses, for the classes of a network's members; 0 past them.
pub struct Rulebook {
    classes: [u8; MOST_MEMBERS],
}

impl Rulebook {
    pub fn of(network: &Network) -> Rulebook {
        let mut classes = [0; MOST_MEMBERS];
        for (class, member) in classes.iter_mut().zip(&network.members) {
            *class = member.class;
        }
        Rulebook { classes }
    }

    /// Fills `awards` by the rule of the house, or refuses the list and leaves the buffer.
    pub fn awards(
        &self,
        house: u8,
        estate: u32,
        claims: &[u32],
        awards: &mut [u32],
    ) -> Result<(), Fault> {
        if claims.len() > MOST_MEMBERS || awards.len() != claims.len() {
            return Err(Fault::of_nobody(10, Layer::Rule, 0));
        }
        if let Some(creditor) = claims.iter().position(|claim| *claim > LARGEST_CLAIM) {
            return Err(Fault::of_pair(11, Layer::Rule, 0, NOBODY, creditor as u8));
        }
        match house {
            0 => priority(estate, claims, awards),
            1 => unit_rule(estate, claims, awards, equal_awards),
            2 => unit_rule(estate, claims, awards, jefferson),
            3 => dual_of_equal_awards(estate, claims, awards),
            _ => self.by_classes(estate, claims, awards),
        }
        Ok(())
    }

    /// Serves the classes in turn, each by Jefferson.
    fn by_classes(&self, estate: u32, claims: &[u32], awards: &mut [u32]) {
        awards.fill(0);
        let mut left = estate;
        for class in 0..=HIGHEST_CLASS {
            let (mut part, mut shares) = ([0; MOST_MEMBERS], [0; MOST_MEMBERS]);
            for (k, claim) in claims.iter().enumerate() {
                if self.classes[k] == class {
                    part[k] = *claim;
                }
            }
            let (part, shares) = (&part[..claims.len()], &mut shares[..claims.len()]);
            unit_rule(left, part, shares, jefferson);
            for (award, share) in awards.iter_mut().zip(shares) {
                *award += *share;
                left -= *share;
            }
        }
    }
}

fn priority(estate: u32, claims: &[u32], awards: &mut [u32]) {
    let mut left = estate;
    for (award, claim) in awards.iter_mut().zip(claims) {
        *award = left.min(*claim);
        left -= *award;
    }
}

fn dual_of_equal_awards(estate: u32, claims: &[u32], awards: &mut [u32]) {
    let shortfall = claims.iter().sum::<u32>().saturating_sub(estate);
    unit_rule(shortfall, claims, awards, equal_awards);
    for (award, claim) in awards.iter_mut().zip(claims) {
        *award = *claim - *award;
    }
}

/// A score as numerator and denominator.
type Score = (u64, u64);

fn equal_awards(_claim: u32, held: u32) -> Score {
    (1, u64::from(held) + 1)
}

fn jefferson(claim: u32, held: u32) -> Score {
    (u64::from(claim), u64::from(held) + 1)
}

/// One unit at a time, each to the highest score among those that hold less than their claim, and
/// of equals to the lower number.
fn unit_rule(estate: u32, claims: &[u32], awards: &mut [u32], score: impl Fn(u32, u32) -> Score) {
    awards.fill(0);
    for _ in 0..estate {
        let mut best: Option<(usize, Score)> = None;
        for (j, (&claim, &held)) in claims.iter().zip(awards.iter()).enumerate() {
            if held < claim {
                let ours = score(claim, held);
                if best.is_none_or(|(_, top)| ours.0 * top.1 > top.0 * ours.1) {
                    best = Some((j, ours));
                }
            }
        }
        let Some((j, _)) = best else { break };
        awards[j] += 1;
    }
}
