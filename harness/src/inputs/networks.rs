//! Networks of all shapes.
use super::random::Random;
use crate::plain::network::{LARGEST_CLAIM, LARGEST_ENDOWMENT, MOST_MEMBERS, Member, Network};

/// Who owes whom.
#[derive(Clone, Copy)]
enum Shape {
    Nobody,
    Ring,
    Chain,
    Pairs,
    Star,
    Sparse,
    Half,
    Dense,
}

const SHAPES: [Shape; 8] = [
    Shape::Nobody,
    Shape::Ring,
    Shape::Chain,
    Shape::Pairs,
    Shape::Star,
    Shape::Sparse,
    Shape::Half,
    Shape::Dense,
];

impl Shape {
    fn joins(self, random: &mut Random, n: usize, debtor: usize, creditor: usize) -> bool {
        debtor != creditor
            && match self {
                Shape::Nobody => random.one_in(16),
                Shape::Ring => (debtor + 1) % n == creditor,
                Shape::Chain => debtor + 1 == creditor || debtor == creditor + 2,
                Shape::Pairs => debtor ^ 1 == creditor,
                Shape::Star => debtor == 0 || creditor == 0,
                Shape::Sparse => random.below(n) < 2,
                Shape::Half => random.one_in(2),
                Shape::Dense => true,
            }
    }
}

/// How a network's members choose their houses.
#[derive(Clone, Copy)]
enum Houses {
    All(u8),
    OneOfFive,
    Any,
}

/// Claims are kept so moderate that a round of single units looks at about as many scores.
const USUAL_WORK: u64 = 100_000;

/// A network of any shape, size, houses, classes and figures. Most are small, and a few large in
/// every respect.
pub fn any_network(random: &mut Random) -> Network {
    let most = random.pick(&[4, 6, 8, 16, 32]);
    let n = 1 + random.below(most);
    let shape = random.pick(&SHAPES);
    let mut network = Network::new(n);
    enter_members(random, &mut network);
    let work = if random.one_in(100) {
        20 * USUAL_WORK
    } else {
        USUAL_WORK
    };
    let mut largest = random.pick(&[3, 12, 50, 300, LARGEST_CLAIM]);
    loop {
        enter_claims(random, &mut network, shape, largest);
        let units: u64 = network
            .claims_in_order()
            .map(|(_, _, units)| u64::from(units))
            .sum();
        if units * n as u64 <= work || largest <= 3 {
            return network;
        }
        largest /= 3;
    }
}

/// A network in which about half of all pairs have a claim and all members the same house.
pub fn ordinary_network(random: &mut Random, n: usize, house: u8) -> Network {
    let mut network = Network::new(n);
    for member in &mut network.members {
        *member = Member {
            house,
            class: random.below(8) as u8,
            endowment: random.within(0..=300),
        };
    }
    enter_claims(random, &mut network, Shape::Half, 100);
    network
}

/// A network in which everyone has large claims on everyone, all members the same house, and those
/// that owe most are short.
pub fn dense_network(random: &mut Random, house: u8) -> Network {
    let mut network = Network::new(MOST_MEMBERS);
    for member in &mut network.members {
        *member = Member {
            house,
            class: random.below(8) as u8,
            endowment: random.within(0..=200_000),
        };
    }
    for debtor in 0..MOST_MEMBERS {
        let largest = random.pick(&[1_000, 3_000, LARGEST_CLAIM]);
        for creditor in (0..MOST_MEMBERS).filter(|creditor| *creditor != debtor) {
            network.claims[debtor][creditor] = figure(random, largest / 2, largest);
        }
    }
    network
}

fn enter_members(random: &mut Random, network: &mut Network) {
    let one_house = Houses::All(random.below(5) as u8);
    let houses = random.pick(&[one_house, Houses::OneOfFive, Houses::OneOfFive, Houses::Any]);
    let classes = random.pick(&[1, 3, 8]);
    let largest = random.pick(&[0, 2, 10, 60, 1_000, LARGEST_ENDOWMENT]);
    for member in &mut network.members {
        member.house = match houses {
            Houses::All(house) => house,
            Houses::OneOfFive => random.below(5) as u8,
            Houses::Any => random.byte(),
        };
        member.class = random.below(classes) as u8;
        member.endowment = figure(random, 0, largest);
    }
}

fn enter_claims(random: &mut Random, network: &mut Network, shape: Shape, largest: u32) {
    let n = network.n();
    for debtor in 0..n {
        for creditor in 0..n {
            let owes = shape.joins(random, n, debtor, creditor);
            network.claims[debtor][creditor] = if owes { figure(random, 1, largest) } else { 0 };
        }
    }
}

/// A figure up to the largest, which itself comes often.
fn figure(random: &mut Random, least: u32, largest: u32) -> u32 {
    if random.one_in(6) {
        largest
    } else {
        random.within(least..=largest)
    }
}
