//! The figures of a network.

pub const MOST_MEMBERS: usize = 32;
pub const HIGHEST_CLASS: u8 = 7;
pub const LARGEST_ENDOWMENT: u32 = 1_000_000;
pub const LARGEST_CLAIM: u32 = 10_000;

#[derive(Clone, Copy, Default)]
pub struct Member {
    pub house: u8,
    pub class: u8,
    pub endowment: u32,
}

/// `claims[i][j]` is what creditor j claims of debtor i.
pub struct Network {
    pub members: Vec<Member>,
    pub claims: Vec<Vec<u32>>,
}

impl Network {
    /// So many members, with nothing entered.
    pub fn new(n: usize) -> Network {
        Network {
            members: vec![Member::default(); n],
            claims: vec![vec![0; n]; n],
        }
    }

    pub fn n(&self) -> usize {
        self.members.len()
    }

    /// Debtor, creditor and units of each claim above 0, in order of debtor and then creditor.
    pub fn claims_in_order(&self) -> impl Iterator<Item = (usize, usize, u32)> + '_ {
        self.claims.iter().enumerate().flat_map(|(debtor, row)| {
            let claims = row.iter().enumerate().filter(|(_, units)| **units > 0);
            claims.map(move |(creditor, units)| (debtor, creditor, *units))
        })
    }
}
