//! The identifier of an identity key and a window: r' by AES-256 over the 32 bytes of the rules' table 10, then a multiple on secp160r1 by the program
//! that compare/curves measures.
use crate::curves::{times_base, SECP160R1};
use crate::plain::forms::Form;
use crate::plain::unit::IdentityKey;

const K: u8 = 10;

/// One of the two blocks: eleven bytes of padding, K, the window.
fn block(padding: u8, window: u32) -> [u8; 16] {
    let mut block = [padding; 16];
    block[11] = K;
    block[12..].copy_from_slice(&window.to_be_bytes());
    block
}

/// None where r is 0.
pub fn of<F: Form>(identity: &IdentityKey, window: u32) -> Option<[u8; 20]> {
    let blocks = F::encrypt256(identity, [block(0xff, window), block(0x00, window)]);
    let (r, x) = times_base(&SECP160R1, blocks.as_flattened().try_into().unwrap());
    if r == [0; 8] {
        return None;
    }
    let mut bytes = [0; 20];
    for (bytes, limb) in bytes.chunks_exact_mut(4).zip(x[..5].iter().rev()) {
        bytes.copy_from_slice(&limb.to_be_bytes());
    }
    Some(bytes)
}
