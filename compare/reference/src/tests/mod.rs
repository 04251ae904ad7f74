mod curve;
mod edges;
mod errors;
mod frames;
mod record;
mod reach;
mod refusals;
mod replays;
mod time;
mod vectors;

use crate::tag::{self, request_tag, Unit};

pub fn hex(text: &str) -> Vec<u8> {
    let digits: Vec<u8> = text
        .bytes()
        .filter(|b| !b.is_ascii_whitespace())
        .map(|b| (b as char).to_digit(16).unwrap() as u8)
        .collect();
    assert!(digits.len() % 2 == 0);
    digits.chunks(2).map(|pair| pair[0] * 16 + pair[1]).collect()
}

/// A small generator of numbers for tests, the same on every run.
pub struct Dice(pub u64);

impl Dice {
    pub fn next(&mut self) -> u64 {
        self.0 = self.0.wrapping_mul(6364136223846793005).wrapping_add(1442695040888963407);
        let x = self.0;
        (x >> 33) ^ (x << 20)
    }
    pub fn below(&mut self, limit: u64) -> u64 {
        (self.next() >> 3) % limit
    }
}

pub const OWNER_KEY: [u8; 16] = *b"owner key bytes!";
pub const OTHER_KEY: [u8; 16] = *b"other key bytes!";
pub const IDENTITY: [u8; 32] = *b"thirty-two bytes of identity key";

/// A unit with two account keys, the first of them the owner, and an identity key.
pub fn provisioned(components: u32, selectable: u32) -> Unit {
    let mut unit = tag::new_unit(-20, components, selectable).unwrap();
    tag::account_key(&mut unit, &OWNER_KEY).unwrap();
    tag::account_key(&mut unit, &OTHER_KEY).unwrap();
    unit.has_owner = true;
    unit.owner = 1; // the other key came later
    unit.has_identity = true;
    unit.identity = IDENTITY;
    assert!(unit.well_formed());
    unit
}

pub fn sub_key(identity: &[u8; 32], last: u8) -> [u8; 8] {
    let mut message = identity.to_vec();
    message.push(last);
    crate::primitives::sha256(&message)[..8].try_into().unwrap()
}

pub fn proof(identity: &[u8; 32], nonce: &[u8; 8]) -> Vec<u8> {
    let mut message = identity.to_vec();
    message.extend_from_slice(nonce);
    crate::primitives::sha256(&message)[..8].to_vec()
}

/// A whole write with a right tag.
pub fn request(key: &[u8], nonce: &[u8; 8], id: u8, additional: &[u8]) -> Vec<u8> {
    let length = 8 + additional.len() as u8;
    let mut data = vec![id, length];
    data.extend_from_slice(&request_tag(key, nonce, id, length, additional));
    data.extend_from_slice(additional);
    data
}

/// A read with this nonce and then a write with a right tag for it.
pub fn exchange(
    unit: &mut Unit,
    nonce: [u8; 8],
    key: &[u8],
    id: u8,
    additional: &[u8],
) -> Result<Vec<u8>, u8> {
    let mut answer = [0u8; 42];
    tag::read(unit, &nonce, &mut answer).unwrap();
    write(unit, &request(key, &nonce, id, additional))
}

/// A write with 42 lent bytes and everything in reach; gives the bytes written. Checks that the other lent bytes are kept.
pub fn write(unit: &mut Unit, data: &[u8]) -> Result<Vec<u8>, u8> {
    write_in_reach(unit, data, tag::ringable(unit.components))
}

/// The same with these parts in reach.
pub fn write_in_reach(unit: &mut Unit, data: &[u8], reach: u32) -> Result<Vec<u8>, u8> {
    let mut answer = [0xa5u8; 42];
    let result = tag::write(unit, data, reach, &mut answer);
    assert!(unit.well_formed());
    assert!(!unit.live);
    match result {
        Ok(count) => {
            assert!(answer[count..].iter().all(|b| *b == 0xa5));
            Ok(answer[..count].to_vec())
        }
        Err(code) => {
            assert!(answer.iter().all(|b| *b == 0xa5));
            Err(code)
        }
    }
}
