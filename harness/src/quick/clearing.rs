//! Closing a book on which nothing is paid yet, with a visit only where something has changed.
use super::rules::Rulebook;
use super::tally::Tally;
use crate::plain::clearing::Sheet;
use crate::plain::network::{MOST_MEMBERS, Network};

struct Book<'a> {
    network: &'a Network,
    rulebook: Rulebook,
    paid: Vec<Vec<u32>>,
    estates: Vec<u32>,
    /// each member's estate at its last visit
    visited: Vec<Option<u32>>,
    /// who had receded at its last visit
    passed_over: Vec<bool>,
}

/// Rounds under the ring's rulebook, until one moves nothing.
pub fn close(network: &Network, tally: &mut impl Tally) -> Sheet {
    let mut book = Book::open(network);
    let (mut rounds, mut units) = (0, 0);
    loop {
        let moved = book.round(tally);
        tally.round();
        if moved == 0 {
            break;
        }
        rounds += 1;
        units += moved;
    }
    book.sheet(rounds, units)
}

impl<'a> Book<'a> {
    fn open(network: &'a Network) -> Book<'a> {
        let n = network.n();
        let endowments = network.members.iter().map(|member| member.endowment);
        Book {
            network,
            rulebook: Rulebook::of(network),
            paid: vec![vec![0; n]; n],
            estates: endowments.collect(),
            visited: vec![None; n],
            passed_over: vec![false; n],
        }
    }

    /// Settles the members whose estate has changed since their last visit, in order. Answers the
    /// units moved.
    fn round(&mut self, tally: &mut impl Tally) -> u32 {
        let mut moved = 0;
        for member in 0..self.estates.len() {
            let estate = self.estates[member];
            if self.visited[member] != Some(estate) {
                self.visited[member] = Some(estate);
                tally.visit(member, estate);
                moved += self.settle(member, estate, tally);
            }
        }
        moved
    }

    /// Makes a member's row its due row, unless it has receded. Answers the units moved.
    fn settle(&mut self, member: usize, estate: u32, tally: &mut impl Tally) -> u32 {
        let claims = &self.network.claims[member];
        let mut due = [0; MOST_MEMBERS];
        let due = &mut due[..claims.len()];
        let house = self.network.members[member].house;
        self.rulebook.awards(house, estate, claims, due, tally);
        let row = &mut self.paid[member];
        self.passed_over[member] = row.iter().zip(&*due).any(|(paid, due)| paid > due);
        if self.passed_over[member] {
            return 0;
        }
        let mut moved = 0;
        for ((paid, due), estate) in row.iter_mut().zip(due).zip(&mut self.estates) {
            let units = *due - *paid;
            *paid = *due;
            *estate += units;
            moved += units;
        }
        moved
    }

    fn sheet(self, rounds: u32, units: u32) -> Sheet {
        let outlays = self.paid.iter().map(|row| row.iter().sum::<u32>());
        let owed = self.network.claims.iter().map(|row| row.iter().sum());
        Sheet {
            equities: self
                .estates
                .iter()
                .zip(outlays.clone())
                .map(|(estate, outlay)| estate - outlay)
                .collect(),
            defaults: outlays
                .zip(owed)
                .map(|(outlay, owed): (u32, u32)| outlay < owed)
                .collect(),
            rounds,
            units,
            passed_over: self.passed_over.iter().filter(|passed| **passed).count() as u32,
            paid: self.paid,
        }
    }
}
