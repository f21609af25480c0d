//! Creditors that compete for units.
use super::standard::{Score, Standard};
use super::tally::Tally;
use crate::plain::network::MOST_MEMBERS;

/// A creditor that holds less than its claim, with the score for its next unit.
#[derive(Clone, Copy, Default)]
struct Head {
    creditor: usize,
    score: Score,
}

/// All creditors that hold less than their claim, in order. Scores are kept, and only that of the
/// creditor that gets a unit is made anew.
pub struct Contest<'a, S> {
    standard: &'a S,
    claims: &'a [u32],
    heads: [Head; MOST_MEMBERS],
    length: usize,
}

impl<'a, S: Standard> Contest<'a, S> {
    pub fn open(
        standard: &'a S,
        claims: &'a [u32],
        held: &[u32],
        tally: &mut impl Tally,
    ) -> Contest<'a, S> {
        let mut heads = [Head::default(); MOST_MEMBERS];
        let mut length = 0;
        for (creditor, (&claim, &held)) in claims.iter().zip(held).enumerate() {
            if held < claim {
                let score = standard.score(claim, held);
                heads[length] = Head { creditor, score };
                length += 1;
            }
        }
        tally.scores(length);
        Contest {
            standard,
            claims,
            heads,
            length,
        }
    }

    /// How many creditors hold less than their claim.
    pub fn competitors(&self) -> usize {
        self.length
    }

    /// The highest score, if anybody competes.
    pub fn top(&self) -> Option<Score> {
        self.leader().map(|leader| self.heads[leader].score)
    }

    /// The place of the highest score, and of equals the first.
    fn leader(&self) -> Option<usize> {
        let heads = &self.heads[..self.length];
        let mut leader = 0;
        let mut top = heads.first()?.score;
        // a search with a fixed top is faster than a loop that carries the top along
        while let Some(behind) = heads[leader + 1..]
            .iter()
            .position(|head| head.score.above(top))
        {
            leader += 1 + behind;
            top = heads[leader].score;
        }
        Some(leader)
    }

    /// Hands out so many units singly, or as many as are wanted.
    pub fn deal(&mut self, units: u32, awards: &mut [u32], tally: &mut impl Tally) {
        for _ in 0..units {
            let Some(leader) = self.leader() else { break };
            let head = &mut self.heads[leader];
            let (claim, award) = (self.claims[head.creditor], &mut awards[head.creditor]);
            *award += 1;
            tally.step();
            if *award < claim {
                head.score = self.standard.score(claim, *award);
                tally.scores(1);
            } else {
                self.heads.copy_within(leader + 1..self.length, leader);
                self.length -= 1;
            }
        }
    }
}
