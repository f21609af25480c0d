//! Files that ask for as much work as a file can.
//!
//! Everyone claims 10,000 of everyone else, and one member has the only unit. It runs in circles until
//! every claim is paid, 9,920,000 units in all, and each of them changes one estate, so that a visit
//! never finds more than one unit to pay on. A close has no more visits than units paid and members.
use crate::plain::network::{HIGHEST_CLASS, LARGEST_CLAIM, MOST_MEMBERS, Member, Network};

pub struct Worst {
    pub name: &'static str,
    pub network: Network,
}

/// The worst files that are known for each house. Where ties go to the lower number, all claims are
/// paid if the unit starts with the last member, and under the dual with one of the first.
pub fn worst_files() -> Vec<Worst> {
    let last = MOST_MEMBERS - 1;
    let one_class = |_| 0;
    let eight_classes = |member| (member % (usize::from(HIGHEST_CLASS) + 1)) as u8;
    let worst = |name, network| Worst { name, network };
    vec![
        worst("priority", circles(0, last, one_class)),
        worst("equal awards", circles(1, last, one_class)),
        worst("Jefferson", circles(2, last, one_class)),
        worst(
            "Jefferson, no two claims alike",
            unlike(circles(2, last, one_class)),
        ),
        worst("dual of equal awards", circles(3, 1, one_class)),
        worst("classes, all in one", circles(4, last, one_class)),
        worst(
            "classes, four members in each",
            circles(4, last, eight_classes),
        ),
    ]
}

/// All claims at their limit, and one unit, which a member starts with.
fn circles(house: u8, start: usize, class: impl Fn(usize) -> u8) -> Network {
    let mut network = Network::new(MOST_MEMBERS);
    for (i, member) in network.members.iter_mut().enumerate() {
        *member = Member {
            house,
            class: class(i),
            endowment: u32::from(i == start),
        };
    }
    for (debtor, row) in network.claims.iter_mut().enumerate() {
        row.fill(LARGEST_CLAIM);
        row[debtor] = 0;
    }
    network
}

/// Takes a little from each claim, for each distance from debtor to creditor another number: so the
/// scores are seldom equal, and everyone still claims as much as is claimed of it.
fn unlike(mut network: Network) -> Network {
    let n = network.n();
    for debtor in 0..n {
        for distance in 1..n {
            network.claims[debtor][(debtor + distance) % n] -= (distance * 7 % n) as u32;
        }
    }
    network
}
