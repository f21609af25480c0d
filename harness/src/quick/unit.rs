//! The unit rule, from a guess near the estate.
use super::contest::Contest;
use super::standard::Standard;
use super::tally::Tally;

/// Divides the estate unit by unit, each to the highest score among those that hold less than their
/// claim, and of equals to the lower number. Starts from the standard's guess if that passes the
/// check, and from nothing if not.
pub fn unit_rule(
    standard: &impl Standard,
    estate: u32,
    claims: &[u32],
    awards: &mut [u32],
    tally: &mut impl Tally,
) {
    let total = claims.iter().sum();
    if estate == 0 {
        awards.fill(0);
    } else if estate >= total {
        awards.copy_from_slice(claims);
    } else {
        standard.guess(estate, total, claims, awards);
        if let Some((mut contest, rest)) = checked(standard, estate, claims, awards, tally) {
            contest.deal(rest, awards, tally);
        } else {
            awards.fill(0);
            Contest::open(standard, claims, awards, tally).deal(estate, awards, tally);
        }
    }
}

/// The contest for what a guess leaves of the estate, and how many units that is, if the guess is
/// within claims and estate and every unit held scores above every unit still wanted.
fn checked<'a, S: Standard>(
    standard: &'a S,
    estate: u32,
    claims: &'a [u32],
    guess: &[u32],
    tally: &mut impl Tally,
) -> Option<(Contest<'a, S>, u32)> {
    let rest = estate.checked_sub(guess.iter().sum())?;
    if guess.iter().zip(claims).any(|(held, claim)| held > claim) {
        return None;
    }
    let contest = Contest::open(standard, claims, guess, tally);
    let top = contest.top()?;
    let mut holders = claims.iter().zip(guess).filter(|(_, held)| **held > 0);
    tally.scores(holders.clone().count());
    holders
        .all(|(claim, held)| standard.score(*claim, held - 1).above(top))
        .then_some((contest, rest))
}

#[cfg(test)]
mod tests {
    use super::super::standard::{Jefferson, Score};
    use super::super::tally::Uncounted;
    use super::*;

    /// Jefferson's scores with a guess that is given.
    struct Guessed([u32; 3]);

    impl Standard for Guessed {
        fn score(&self, claim: u32, held: u32) -> Score {
            Jefferson.score(claim, held)
        }

        fn guess(&self, _estate: u32, _total: u32, _claims: &[u32], awards: &mut [u32]) {
            awards.copy_from_slice(&self.0);
        }
    }

    fn awards(standard: &impl Standard, estate: u32) -> [u32; 3] {
        let mut awards = [9; 3];
        unit_rule(standard, estate, &[6, 3, 1], &mut awards, &mut Uncounted);
        awards
    }

    #[test]
    fn no_guess_misleads() {
        for estate in 0..12 {
            let expected = awards(&Jefferson, estate);
            for code in 0..8 * 8 * 8 {
                let guess = [code % 8, code / 8 % 8, code / 64];
                assert_eq!(awards(&Guessed(guess), estate), expected);
            }
        }
    }
}
