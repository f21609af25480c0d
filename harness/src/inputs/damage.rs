//! Files that are damaged, most of them slightly.
use super::networks::any_network;
use super::random::Random;
use crate::plain::LONGEST_INPUT;
use crate::plain::file::{self, CLAIM, MEMBER};

/// Figures at the limits of claims and endowments, and past them.
const NEAR_LIMITS: [u32; 6] = [0, 10_000, 10_001, 1_000_000, 1_000_001, u32::MAX];

/// A network's file with a few things wrong, or bytes that were never a file. Some are sound all
/// the same.
pub fn damaged_file(random: &mut Random) -> Vec<u8> {
    if random.one_in(20) {
        return noise(random);
    }
    let mut records = file::records(&any_network(random));
    let mut bytes;
    if random.one_in(2) {
        damage_records(random, &mut records);
        bytes = records.concat();
    } else {
        bytes = records.concat();
        damage_bytes(random, &mut bytes);
    }
    while random.one_in(4) {
        damage_bytes(random, &mut bytes);
    }
    if random.one_in(100) {
        bytes.resize(LONGEST_INPUT + random.below(2), random.pick(&[0, 1, 3, 4]));
    }
    bytes
}

/// Bytes that begin as a file might.
fn noise(random: &mut Random) -> Vec<u8> {
    let length = random.below(40);
    (0..length).map(|_| likely_byte(random)).collect()
}

/// A byte that is mostly low, as kinds and member numbers are.
fn likely_byte(random: &mut Random) -> u8 {
    if random.one_in(4) {
        random.byte()
    } else {
        random.below(6) as u8
    }
}

fn damage_records(random: &mut Random, records: &mut Vec<Vec<u8>>) {
    let (place, other) = (random.below(records.len()), random.below(records.len()));
    match random.below(6) {
        0 => records.swap(place, other),
        1 => records.insert(place, records[other].clone()),
        2 => drop(records.remove(place)),
        3 if place + 1 < records.len() => records.swap(place, place + 1),
        4 => records[0][1] = random.pick(&[0, 1, 2, 31, 32, 33, 255]),
        _ => spoil(random, &mut records[place]),
    }
}

/// Another number in a record, which may be above its limit.
fn spoil(random: &mut Random, record: &mut [u8]) {
    let (kind, body) = (record[0], &mut record[1..]);
    let number = random.pick(&NEAR_LIMITS).to_be_bytes();
    match (kind, random.below(3)) {
        (MEMBER, 0) => body[3..7].copy_from_slice(&number),
        (MEMBER, 1) => body[2] = random.pick(&[7, 8, 255]),
        (CLAIM, 0) => body[2..6].copy_from_slice(&number),
        (CLAIM, 1) => body[0] = body[1],
        (MEMBER | CLAIM, _) => body[random.below(2)] = random.below(40) as u8,
        _ => record[0] = random.below(7) as u8,
    }
}

/// A cut, a stretch missing, bytes between or behind, or a bit turned.
fn damage_bytes(random: &mut Random, bytes: &mut Vec<u8>) {
    let place = random.below(bytes.len() + 1);
    let end = bytes.len().min(place + random.below(9));
    let front = &bytes[..place];
    match random.below(5) {
        0 => *bytes = front.to_vec(),
        1 => *bytes = [front, &bytes[end..]].concat(),
        2 => *bytes = [front, &noise(random), &bytes[place..]].concat(),
        3 => bytes.extend(noise(random)),
        _ => {
            if let Some(byte) = bytes.get_mut(place) {
                *byte ^= 1 << random.below(8);
            }
        }
    }
}
