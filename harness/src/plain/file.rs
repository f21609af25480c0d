//! The network file: reading with every fault, and writing.
use super::fault::{Fault, Layer};
use super::network::{
    HIGHEST_CLASS, LARGEST_CLAIM, LARGEST_ENDOWMENT, MOST_MEMBERS, Member, Network,
};
use std::ops::RangeInclusive;

pub const NETWORK: u8 = 1;
pub const MEMBER: u8 = 2;
pub const CLAIM: u8 = 3;
pub const END: u8 = 4;

fn body_length(kind: u8) -> usize {
    match kind {
        NETWORK => 1,
        MEMBER => 7,
        CLAIM => 6,
        _ => 0,
    }
}

/// A record of a file, and the byte at which it begins.
struct Record<'a> {
    byte: usize,
    kind: u8,
    body: &'a [u8],
}

impl Record<'_> {
    fn fault(&self, number: u8) -> Fault {
        Fault::of_nobody(number, Layer::File, self.byte)
    }

    /// The number in four bytes of the body, highest byte first.
    fn number(&self, place: usize) -> u32 {
        self.body[place..place + 4]
            .iter()
            .fold(0, |number, byte| number << 8 | u32::from(*byte))
    }
}

struct Reader<'a> {
    file: &'a [u8],
    byte: usize,
}

impl<'a> Reader<'a> {
    /// The next record, which has to be of one of the kinds that are due.
    fn record(&mut self, due: RangeInclusive<u8>) -> Result<Record<'a>, Fault> {
        let byte = self.byte;
        let fault = |number| Fault::of_nobody(number, Layer::File, byte);
        let (&kind, rest) = self.file[byte..].split_first().ok_or(fault(12))?;
        if !(NETWORK..=END).contains(&kind) {
            return Err(fault(13));
        }
        if !due.contains(&kind) {
            return Err(fault(14));
        }
        let body = rest.get(..body_length(kind)).ok_or(fault(12))?;
        self.byte += 1 + body.len();
        Ok(Record { byte, kind, body })
    }
}

/// The network whose file the bytes are, or the one fault that they have.
pub fn read(file: &[u8]) -> Result<Network, Fault> {
    let mut reader = Reader { file, byte: 0 };
    let n = reader.record(NETWORK..=NETWORK)?.body[0];
    if n == 0 || usize::from(n) > MOST_MEMBERS {
        return Err(Fault::of_nobody(1, Layer::Draft, 0));
    }
    let mut network = Network::new(usize::from(n));
    for member in 0..n {
        let record = reader.record(MEMBER..=MEMBER)?;
        network.members[usize::from(member)] = read_member(&record, member)?;
    }
    let mut before = None;
    loop {
        let record = reader.record(CLAIM..=END)?;
        if record.kind == END {
            break;
        }
        let (debtor, creditor, units) = read_claim(&record, n)?;
        if units == 0 || before >= Some((debtor, creditor)) {
            return Err(record.fault(15));
        }
        before = Some((debtor, creditor));
        network.claims[usize::from(debtor)][usize::from(creditor)] = units;
    }
    if reader.byte < file.len() {
        return Err(Fault::of_nobody(14, Layer::File, reader.byte));
    }
    Ok(network)
}

fn read_member(record: &Record, due: u8) -> Result<Member, Fault> {
    let (member, house, class) = (record.body[0], record.body[1], record.body[2]);
    let endowment = record.number(3);
    let fault = |number| Fault::of_member(number, Layer::Draft, record.byte, member);
    if member != due {
        return Err(record.fault(14));
    }
    if class > HIGHEST_CLASS {
        return Err(fault(3));
    }
    if endowment > LARGEST_ENDOWMENT {
        return Err(fault(4));
    }
    Ok(Member {
        house,
        class,
        endowment,
    })
}

fn read_claim(record: &Record, n: u8) -> Result<(u8, u8, u32), Fault> {
    let (debtor, creditor, units) = (record.body[0], record.body[1], record.number(2));
    let fault = |number| Fault::of_pair(number, Layer::Draft, record.byte, debtor, creditor);
    if debtor >= n || creditor >= n {
        return Err(fault(2));
    }
    if debtor == creditor {
        return Err(fault(5));
    }
    if units > LARGEST_CLAIM {
        return Err(fault(6));
    }
    Ok((debtor, creditor, units))
}

/// The records of a network's file.
pub fn records(network: &Network) -> Vec<Vec<u8>> {
    let mut records = vec![vec![NETWORK, network.n() as u8]];
    for (k, member) in network.members.iter().enumerate() {
        let mut record = vec![MEMBER, k as u8, member.house, member.class];
        record.extend(member.endowment.to_be_bytes());
        records.push(record);
    }
    for (debtor, creditor, units) in network.claims_in_order() {
        let mut record = vec![CLAIM, debtor as u8, creditor as u8];
        record.extend(units.to_be_bytes());
        records.push(record);
    }
    records.push(vec![END]);
    records
}

pub fn write(network: &Network) -> Vec<u8> {
    records(network).concat()
}
