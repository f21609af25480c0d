//! Standards: the scores by which creditors compete for their next unit.

/// A fraction.
#[derive(Clone, Copy, Default)]
pub struct Score {
    numerator: u32,
    denominator: u32,
}

impl Score {
    /// Whether this is the higher score, by cross products, which fit 32 bits.
    pub fn above(self, other: Score) -> bool {
        self.numerator * other.denominator > other.numerator * self.denominator
    }
}

/// No score falls short of the next of the same creditor.
pub trait Standard {
    /// The score of a creditor that holds so much for its next unit.
    fn score(&self, claim: u32, held: u32) -> Score;

    /// Awards that are the rule's at some estate not above this one, or hoped to be.
    fn guess(&self, estate: u32, total: u32, claims: &[u32], awards: &mut [u32]);
}

pub struct EqualAwards;

impl Standard for EqualAwards {
    fn score(&self, _claim: u32, held: u32) -> Score {
        Score {
            numerator: 1,
            denominator: held + 1,
        }
    }

    /// The lesser of claim and level, for the highest level that fits the estate.
    fn guess(&self, estate: u32, _total: u32, claims: &[u32], awards: &mut [u32]) {
        let level = highest_level(estate, claims);
        for (award, claim) in awards.iter_mut().zip(claims) {
            *award = level.min(*claim);
        }
    }
}

/// From 0 the level rises to what those above it can get each, until it rises no more.
fn highest_level(estate: u32, claims: &[u32]) -> u32 {
    let mut level = 0;
    loop {
        let (mut met, mut open) = (0, 0);
        for claim in claims {
            if *claim > level {
                open += 1;
            } else {
                met += *claim;
            }
        }
        let share = (estate - met) / open;
        if share <= level {
            return level;
        }
        level = share;
    }
}

pub struct Jefferson;

impl Standard for Jefferson {
    fn score(&self, claim: u32, held: u32) -> Score {
        Score {
            numerator: claim,
            denominator: held + 1,
        }
    }

    /// Each claim's share of the estate, rounded down, by one division for all of them.
    fn guess(&self, estate: u32, total: u32, claims: &[u32], awards: &mut [u32]) {
        let rate = (u64::from(estate) << 32) / u64::from(total) + 1;
        for (award, claim) in awards.iter_mut().zip(claims) {
            *award = (u64::from(*claim) * rate >> 32) as u32;
        }
    }
}
