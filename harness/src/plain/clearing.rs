//! Closing a book on which nothing is paid yet.
use super::network::{MOST_MEMBERS, Network};
use super::rules::Rulebook;

pub struct Sheet {
    pub paid: Vec<Vec<u32>>,
    pub equities: Vec<u32>,
    pub defaults: Vec<bool>,
    /// the rounds that moved units, and those units
    pub rounds: u32,
    pub units: u32,
    /// the members passed over in the last round
    pub passed_over: u32,
}

/// Rounds under the ring's rulebook, until one moves nothing.
pub fn close(network: &Network) -> Sheet {
    let rulebook = Rulebook::of(network);
    let mut paid = vec![vec![0; network.n()]; network.n()];
    let (mut rounds, mut units) = (0, 0);
    let passed_over = loop {
        let (moved, passed_over) = round(network, &rulebook, &mut paid);
        if moved == 0 {
            break passed_over;
        }
        rounds += 1;
        units += moved;
    };
    let members = 0..network.n();
    let outlay = |i: usize| paid[i].iter().sum::<u32>();
    let equities = members
        .clone()
        .map(|i| estate(network, &paid, i) - outlay(i))
        .collect();
    let defaults = members
        .map(|i| outlay(i) < network.claims[i].iter().sum())
        .collect();
    Sheet {
        paid,
        equities,
        defaults,
        rounds,
        units,
        passed_over,
    }
}

/// Settles all members in order. Answers the units moved and the members passed over.
fn round(network: &Network, rulebook: &Rulebook, paid: &mut [Vec<u32>]) -> (u32, u32) {
    let (mut moved, mut passed_over) = (0, 0);
    let mut due = [0; MOST_MEMBERS];
    let due = &mut due[..network.n()];
    for (i, member) in network.members.iter().enumerate() {
        let estate = estate(network, paid, i);
        let accepted = rulebook.awards(member.house, estate, &network.claims[i], due);
        assert!(
            accepted.is_ok(),
            "a network's claims are a list that is accepted"
        );
        if paid[i].iter().zip(&*due).any(|(paid, due)| paid > due) {
            passed_over += 1;
        } else {
            moved += due.iter().sum::<u32>() - paid[i].iter().sum::<u32>();
            paid[i].copy_from_slice(due);
        }
    }
    (moved, passed_over)
}

fn estate(network: &Network, paid: &[Vec<u32>], member: usize) -> u32 {
    network.members[member].endowment + paid.iter().map(|row| row[member]).sum::<u32>()
}
