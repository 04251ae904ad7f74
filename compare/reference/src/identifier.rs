//! The identifier that the tag works out for a window, with its r.

use crate::curve::secp160r1;
use crate::numbers::{to_bytes, ZERO};
use crate::primitives::aes256_encrypt;
use std::cell::RefCell;
use std::collections::HashMap;

/// K, the exponent of the rotation period.
pub const K: u8 = 10;

/// The identifier and r, cut to the curve's 160 bits or padded to them.
#[derive(Clone, Copy, Debug, PartialEq, Eq)]
pub struct Identifier {
    pub id: [u8; 20],
    pub r: [u8; 20],
}

/// r': the 32 bytes of the rules' table 10, two blocks encrypted with the identity key.
pub fn r_prime(identity: &[u8; 32], window: u32) -> [u8; 32] {
    let mut table = [0u8; 32];
    for (half, padding) in [(0, 0xff), (16, 0x00)] {
        table[half..half + 11].fill(padding);
        table[half + 11] = K;
        table[half + 12..half + 16].copy_from_slice(&window.to_be_bytes());
    }
    let first = aes256_encrypt(identity, table[..16].try_into().unwrap());
    let second = aes256_encrypt(identity, table[16..].try_into().unwrap());
    [first, second].concat().try_into().unwrap()
}

/// The identifier of r'; none if r is 0 before it is cut.
pub fn of_r_prime(r_prime: &[u8; 32]) -> Option<Identifier> {
    let (r, x) = secp160r1().multiple(r_prime);
    if r == ZERO {
        return None;
    }
    // The 160 lower bits of each, big-endian.
    let low = |number| to_bytes(number)[12..].try_into().unwrap();
    Some(Identifier { id: low(&x), r: low(&r) })
}

thread_local! {
    /// What was worked out before, by key and window.
    static KNOWN: RefCell<HashMap<([u8; 32], u32), Option<Identifier>>> = RefCell::new(HashMap::new());
}

/// The identifier of a key and a window.
pub fn of(identity: &[u8; 32], window: u32) -> Option<Identifier> {
    let known = KNOWN.with(|known| known.borrow().get(&(*identity, window)).copied());
    known.unwrap_or_else(|| {
        let found = of_r_prime(&r_prime(identity, window));
        KNOWN.with(|known| known.borrow_mut().insert((*identity, window), found));
        found
    })
}
