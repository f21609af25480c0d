//! Counts of the work of a close.
use crate::straightforward::Scores;
use harness::plain::network::Network;
use harness::quick::{self, tally::Tally};

/// What plain Rust does that does the same as the engine, and what the straightforward engine would.
#[derive(Default)]
pub struct Counts {
    /// the rounds, with the last one, which moves nothing
    pub rounds: u64,
    pub units: u64,
    pub awards_calls: u64,
    pub single_units: u64,
    pub scores: u64,
    /// the scores that the straightforward engine evaluates
    pub straightforward: u64,
    tables: Vec<Scores>,
    /// those of its awards calls in a round: one for each member, which it repeats until the member's
    /// estate changes
    calls: Vec<u64>,
}

impl Counts {
    pub fn of(network: &Network) -> Counts {
        let members = 0..network.n();
        let mut counts = Counts {
            tables: members.map(|member| Scores::of(network, member)).collect(),
            calls: vec![0; network.n()],
            ..Counts::default()
        };
        counts.units = quick::close(network, &mut counts).units.into();
        counts
    }

    /// Adds another network's counts.
    pub fn add(&mut self, other: &Counts) {
        self.rounds += other.rounds;
        self.units += other.units;
        self.awards_calls += other.awards_calls;
        self.single_units += other.single_units;
        self.scores += other.scores;
        self.straightforward += other.straightforward;
    }

    pub fn scores_per_call(&self) -> f64 {
        self.scores as f64 / self.awards_calls as f64
    }
}

impl Tally for Counts {
    fn visit(&mut self, member: usize, estate: u32) {
        self.awards_calls += 1;
        self.calls[member] = self.tables[member].at(estate);
    }

    fn round(&mut self) {
        self.rounds += 1;
        self.straightforward += self.calls.iter().sum::<u64>();
    }

    fn scores(&mut self, scores: usize) {
        self.scores += scores as u64;
    }

    fn step(&mut self) {
        self.single_units += 1;
    }
}

#[cfg(test)]
mod tests {
    use super::*;
    use harness::inputs::networks::any_network;
    use harness::inputs::random::Random;
    use harness::plain::rules::Rulebook;

    fn awards(rulebook: &Rulebook, house: u8, estate: u32, claims: &[u32]) -> Vec<u32> {
        let mut awards = vec![0; claims.len()];
        let accepted = rulebook.awards(house, estate, claims, &mut awards);
        assert!(accepted.is_ok());
        awards
    }

    /// Two scores for each unit and each creditor short of its claim but the first.
    fn dealing(rulebook: &Rulebook, house: u8, estate: u32, claims: &[u32]) -> u64 {
        let scores_at = |held: u32| {
            let awards = awards(rulebook, house, held, claims);
            let short = awards
                .iter()
                .zip(claims)
                .filter(|(award, claim)| award < claim);
            2 * (short.count() as u64 - 1)
        };
        (0..estate.min(claims.iter().sum())).map(scores_at).sum()
    }

    fn scores(network: &Network, rulebook: &Rulebook, member: usize, estate: u32) -> u64 {
        let claims = &network.claims[member];
        match network.members[member].house {
            0 => 0,
            house @ 1..3 => dealing(rulebook, house, estate, claims),
            3 => {
                let shortfall = claims.iter().sum::<u32>().saturating_sub(estate);
                dealing(rulebook, 1, shortfall, claims)
            }
            _ => {
                (0..8)
                    .fold((0, estate), |(scores, left), class| {
                        let of_class =
                            |k: usize| claims[k] * u32::from(network.members[k].class == class);
                        let part: Vec<u32> = (0..claims.len()).map(of_class).collect();
                        let more = dealing(rulebook, 2, left, &part);
                        (scores + more, left.saturating_sub(part.iter().sum()))
                    })
                    .0
            }
        }
    }

    /// Visits every member in every round.
    fn straightforward(network: &Network) -> u64 {
        let (n, rulebook) = (network.n(), Rulebook::of(network));
        let (mut paid, mut count) = (vec![vec![0; n]; n], 0);
        loop {
            let before = paid.clone();
            for member in 0..n {
                let received: u32 = paid.iter().map(|row| row[member]).sum();
                let estate = network.members[member].endowment + received;
                let house = network.members[member].house;
                count += scores(network, &rulebook, member, estate);
                paid[member] = awards(&rulebook, house, estate, &network.claims[member]);
            }
            if paid == before {
                return count;
            }
        }
    }

    #[test]
    fn straightforward_scores_are_exact() {
        let small = |network: &Network| network.claims.iter().flatten().sum::<u32>() < 300;
        let networks = (0..1000).map(|case| any_network(&mut Random::of_case(1, case)));
        for network in networks.filter(small) {
            assert_eq!(
                Counts::of(&network).straightforward,
                straightforward(&network)
            );
        }
    }
}
