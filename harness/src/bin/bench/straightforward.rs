//! What the straightforward engine evaluates: it visits every member in every round and deals every
//! unit from the first on. For each unit it looks at all creditors that hold less than their claim,
//! and evaluates two scores for each of them but the first.
use harness::plain::network::{HIGHEST_CLASS, Member, Network};
use harness::quick::contest::Contest;
use harness::quick::standard::{EqualAwards, Jefferson, Standard};
use harness::quick::tally::Uncounted;

/// The scores evaluated in one awards call, by the estate.
pub struct Scores(Vec<u64>);

impl Scores {
    /// For the claims on one member.
    pub fn of(network: &Network, member: usize) -> Scores {
        let claims = &network.claims[member];
        Scores(match network.members[member].house {
            0 => vec![0],
            1 => dealing(&EqualAwards, claims),
            2 => dealing(&Jefferson, claims),
            3 => {
                let mut scores = dealing(&EqualAwards, claims);
                scores.reverse();
                scores
            }
            _ => by_classes(&network.members, claims),
        })
    }

    /// An estate above the claims total is as good as the claims total.
    pub fn at(&self, estate: u32) -> u64 {
        self.0[(self.0.len() - 1).min(estate as usize)]
    }
}

/// The scores evaluated until so many units are dealt.
fn dealing(standard: &impl Standard, claims: &[u32]) -> Vec<u64> {
    let mut held = vec![0; claims.len()];
    let mut contest = Contest::open(standard, claims, &held, &mut Uncounted);
    let (mut scores, mut total) = (vec![0], 0);
    while contest.competitors() > 0 {
        total += 2 * (contest.competitors() as u64 - 1);
        scores.push(total);
        contest.deal(1, &mut held, &mut Uncounted);
    }
    scores
}

fn by_classes(members: &[Member], claims: &[u32]) -> Vec<u64> {
    let mut scores = vec![0];
    for class in 0..=HIGHEST_CLASS {
        let of_class = |(claim, member): (&u32, &Member)| claim * u32::from(member.class == class);
        let part: Vec<u32> = claims.iter().zip(members).map(of_class).collect();
        let before = scores[scores.len() - 1];
        let further = dealing(&Jefferson, &part).into_iter().skip(1);
        scores.extend(further.map(|more| before + more));
    }
    scores
}
