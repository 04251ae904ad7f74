//! The phone's side: provisioned units, and requests with their nonces, made before anything is measured.
use crate::library;
use crate::plain::forms::{hmac, Tag};
use crate::plain::record;
use crate::plain::sha256::sha256;
use crate::plain::tag::ROOM;
use crate::plain::unit::MOST_NONCES;

pub const IDENTITY: [u8; 32] = *b"thirty-two bytes of identity key";
/// Whose key is the owner's among the users 0, 1, ..
pub const OWNER: usize = 0;

/// The account key of a user.
pub fn key(user: usize) -> [u8; 16] {
    [4 + user as u8; 16]
}

/// A nonce read and the write that follows it, with the mask of the parts that can be reached.
#[derive(Clone, Debug)]
pub struct Pair {
    pub nonce: [u8; 8],
    pub request: Vec<u8>,
    pub reach: u32,
}

pub fn nonce(n: u64) -> [u8; 8] {
    // An odd factor: as many different nonces as numbers
    n.wrapping_add(1).wrapping_mul(0x9e3779b97f4a7c15).to_be_bytes()
}

fn first(digest: [u8; 32]) -> Tag {
    digest[..8].try_into().unwrap()
}

fn proof(nonce: &[u8; 8]) -> Tag {
    first(sha256::<false>(&[&IDENTITY[..], nonce].concat()))
}

fn derived(n: u8) -> Tag {
    first(sha256::<false>(&[&IDENTITY[..], &[n]].concat()))
}

/// A request signed with a key on a nonce.
pub fn signed(key: &[u8], nonce: &[u8; 8], id: u8, data: &[u8]) -> Vec<u8> {
    let length = 8 + data.len() as u8;
    let tag = hmac(key, &[&[1], &nonce[..], &[id, length], data].concat());
    [&[id, length], &tag[..8], data].concat()
}

/// The n-th request of an ID, by a user where an account key signs it, on a unit of three components that are all in reach.
pub fn pair(id: u8, user: usize, n: u64) -> Pair {
    let (nonce, account) = (nonce(n), key(user));
    let [.., high, low] = (1 + n % 6000).to_be_bytes();
    let request = match id {
        0x00 | 0x01 => signed(&account, &nonce, id, &[]),
        0x02 => signed(&account, &nonce, id, &[&[n as u8; 32][..], &proof(&nonce)].concat()),
        0x03 => signed(&account, &nonce, id, &proof(&nonce)),
        0x04 => signed(&derived(1), &nonce, id, &[]),
        0x05 => ring(&nonce, [1 + (n % 7) as u8, high, low, (n % 4) as u8]),
        0x06 => signed(&derived(2), &nonce, id, &[]),
        0x07 => signed(&derived(3), &nonce, id, &[&[][..], &[0], &[1]][n as usize % 3]),
        _ => signed(&derived(3), &nonce, id, &proof(&nonce)),
    };
    Pair { nonce, request, reach: 7 }
}

/// A ring request with that data.
pub fn ring(nonce: &[u8; 8], data: [u8; 4]) -> Vec<u8> {
    signed(&derived(2), nonce, 0x05, &data)
}

fn done(code: u64) {
    assert!(code < 256, "refusal {}", code - 256);
}

/// A new unit with the owner's account key, some time later.
fn owned(components: u32, selectable: u32) -> Vec<u8> {
    let (mut u, mut answer) = (vec![0; record::SIZE], [0; ROOM]);
    done(library::new(&mut u, components, selectable));
    done(library::account_key(&mut u, &key(OWNER)));
    done(library::elapsed(&mut u, 123_456_789, &mut answer));
    u
}

/// The others' keys arrive, so that the owner's is the last of that many; and sixteen nonces are read.
fn crowded(mut u: Vec<u8>, keys: usize) -> Vec<u8> {
    (1..keys).for_each(|user| done(library::account_key(&mut u, &key(user))));
    (0..MOST_NONCES as u64).for_each(|n| done(library::read(&mut u, &nonce(u64::MAX - 20 - n), &mut [0; ROOM])));
    u
}

/// The record of a unit with that many account keys, the last of them the owner's, sixteen nonces and the identity key in force.
pub fn provisioned(keys: usize, components: u32, selectable: u32) -> Vec<u8> {
    let (mut u, mut answer) = (owned(components, selectable), [0; ROOM]);
    let mut blocks = [0; 32];
    library::encrypt(&key(OWNER), &IDENTITY[..16], &mut blocks[..16]);
    library::encrypt(&key(OWNER), &IDENTITY[16..], &mut blocks[16..]);
    for (n, id, data) in [(u64::MAX - 2, 0x01, &[][..]), (u64::MAX - 3, 0x02, &blocks)] {
        done(library::read(&mut u, &nonce(n), &mut answer));
        done(library::write(&mut u, &signed(&key(OWNER), &nonce(n), id, data), 0, &mut answer));
    }
    done(library::disconnect(&mut u));
    crowded(u, keys)
}

/// The unit of the measurements: three components, a selectable volume, and pairing on, so that 0x04 is served.
pub fn measured(keys: usize) -> Vec<u8> {
    let mut u = provisioned(keys, 3, 1);
    done(library::pairing(&mut u, 1));
    u
}

/// Units for the comparison of answers: the measured one; fewer components, with consent by the button or without; no identity key yet.
pub fn various(keys: usize) -> [Vec<u8>; 5] {
    let mut consented = provisioned(keys, 2, 0);
    done(library::button(&mut consented, &mut [0; ROOM]));
    [measured(keys), consented, provisioned(keys, 1, 1), provisioned(keys, 0, 0), crowded(owned(3, 0), keys)]
}
