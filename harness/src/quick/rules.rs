//! The ring's rulebook, for lists that are accepted.
use super::standard::{EqualAwards, Jefferson};
use super::tally::Tally;
use super::unit::unit_rule;
use crate::plain::network::{HIGHEST_CLASS, MOST_MEMBERS, Network};

/// The rules of the houses, for the classes of a network's members.
pub struct Rulebook {
    classes: Vec<u8>,
}

impl Rulebook {
    pub fn of(network: &Network) -> Rulebook {
        let classes = network.members.iter().map(|member| member.class);
        Rulebook {
            classes: classes.collect(),
        }
    }

    /// Fills `awards` by the rule of the house.
    pub fn awards(
        &self,
        house: u8,
        estate: u32,
        claims: &[u32],
        awards: &mut [u32],
        tally: &mut impl Tally,
    ) {
        match house {
            0 => priority(estate, claims, awards),
            1 => unit_rule(&EqualAwards, estate, claims, awards, tally),
            2 => unit_rule(&Jefferson, estate, claims, awards, tally),
            3 => dual_of_equal_awards(estate, claims, awards, tally),
            _ => self.by_classes(estate, claims, awards, tally),
        }
    }

    /// Serves the classes in turn, each by Jefferson, while the estate lasts.
    fn by_classes(&self, estate: u32, claims: &[u32], awards: &mut [u32], tally: &mut impl Tally) {
        awards.fill(0);
        let mut left = estate;
        let (mut part, mut shares) = ([0; MOST_MEMBERS], [0; MOST_MEMBERS]);
        let (part, shares) = (&mut part[..claims.len()], &mut shares[..claims.len()]);
        for class in 0..=HIGHEST_CLASS {
            for ((part, claim), member_class) in part.iter_mut().zip(claims).zip(&self.classes) {
                *part = if *member_class == class { *claim } else { 0 };
            }
            unit_rule(&Jefferson, left, part, shares, tally);
            for (award, share) in awards.iter_mut().zip(&*shares) {
                *award += share;
                left -= share;
            }
            if left == 0 {
                break;
            }
        }
    }
}

fn priority(estate: u32, claims: &[u32], awards: &mut [u32]) {
    let mut left = estate;
    for (award, claim) in awards.iter_mut().zip(claims) {
        *award = left.min(*claim);
        left -= *award;
    }
}

fn dual_of_equal_awards(estate: u32, claims: &[u32], awards: &mut [u32], tally: &mut impl Tally) {
    let shortfall = claims.iter().sum::<u32>().saturating_sub(estate);
    unit_rule(&EqualAwards, shortfall, claims, awards, tally);
    for (award, claim) in awards.iter_mut().zip(claims) {
        *award = *claim - *award;
    }
}
