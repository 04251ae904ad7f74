//! The two forms of the same cryptographic work. Everything above them is written once.
use crate::plain::aes::{Block, Bytes, Tables};
use crate::plain::sha256::{compress, words, Hash, State, INITIAL};

/// The bytes of a tag, a key proof, a key made from the identity key.
pub const TAG_SIZE: usize = 8;
pub type Tag = [u8; TAG_SIZE];

pub trait Form {
    /// A key of HMAC, of up to 16 bytes, as it is held between the request and its answer.
    type Keyed;
    fn keyed(key: &[u8]) -> Self::Keyed;
    /// The first bytes of HMAC over the parts, 55 bytes at most together.
    fn mac(key: &Self::Keyed, parts: [&[u8]; 3]) -> Tag;
    /// The first bytes of SHA-256 over two parts, 55 bytes at most together.
    fn hash(first: &[u8], second: &[u8]) -> Tag;
    fn encrypt<const N: usize>(key: &Block, blocks: [Block; N]) -> [Block; N];
    fn decrypt<const N: usize>(key: &Block, blocks: [Block; N]) -> [Block; N];
    /// By AES-256.
    fn encrypt256(key: &[u8; 32], blocks: [Block; 2]) -> [Block; 2];
}

fn first_bytes(digest: [u8; 32]) -> Tag {
    digest[..TAG_SIZE].try_into().unwrap()
}

/// Plain HMAC as RFC 2104 says it, from the key's bytes each time; AES byte by byte.
pub struct ByteBox;

pub struct KeyBytes {
    block: [u8; 64],
}

/// HMAC under a key of up to 64 bytes.
pub fn hmac(key: &[u8], message: &[u8]) -> [u8; 32] {
    ByteBox::keyed(key).mac([message, &[], &[]])
}

fn masked(block: &[u8; 64], mask: u8) -> [u8; 64] {
    block.map(|b| b ^ mask)
}

impl KeyBytes {
    fn mac(&self, parts: [&[u8]; 3]) -> [u8; 32] {
        let mut inner = Hash::<false>::new();
        inner.add(&masked(&self.block, 0x36));
        for part in parts {
            inner.add(part);
        }
        let mut outer = Hash::<false>::new();
        outer.add(&masked(&self.block, 0x5c));
        outer.add(&inner.end());
        outer.end()
    }
}

impl Form for ByteBox {
    type Keyed = KeyBytes;

    fn keyed(key: &[u8]) -> KeyBytes {
        let mut block = [0; 64];
        block[..key.len()].copy_from_slice(key);
        KeyBytes { block }
    }

    fn mac(key: &KeyBytes, parts: [&[u8]; 3]) -> Tag {
        first_bytes(key.mac(parts))
    }

    fn hash(first: &[u8], second: &[u8]) -> Tag {
        let mut h = Hash::<false>::new();
        h.add(first);
        h.add(second);
        first_bytes(h.end())
    }

    fn encrypt<const N: usize>(key: &Block, blocks: [Block; N]) -> [Block; N] {
        let keys = Bytes::new(key);
        blocks.map(|b| keys.encrypt(&b))
    }

    fn decrypt<const N: usize>(key: &Block, blocks: [Block; N]) -> [Block; N] {
        let keys = Bytes::new(key);
        blocks.map(|b| keys.decrypt(&b))
    }

    fn encrypt256(key: &[u8; 32], blocks: [Block; 2]) -> [Block; 2] {
        let keys = Bytes::new256(key);
        blocks.map(|b| keys.encrypt(&b))
    }
}

/// The hash values after the key's two pads, made once for request and answer; a last block is laid out at once; the hash unrolled; AES over tables.
pub struct Best;

pub struct Pads {
    inner: State,
    outer: State,
}

fn after(words: [u32; 16]) -> State {
    let mut state = INITIAL;
    compress::<true>(&mut state, &words);
    state
}

/// The hash value after a message whose last part, 55 bytes at most, is given; `before` bytes went before it.
fn after_last(start: &State, before: u64, parts: &[&[u8]]) -> State {
    let mut block = [0; 64];
    let mut n = 0;
    for part in parts {
        block[n..n + part.len()].copy_from_slice(part);
        n += part.len();
    }
    block[n] = 0x80;
    block[56..].copy_from_slice(&(8 * (before + n as u64)).to_be_bytes());
    let mut state = *start;
    compress::<true>(&mut state, &words(&block));
    state
}

fn first_words(state: &State) -> Tag {
    let mut tag = [0; TAG_SIZE];
    tag[..4].copy_from_slice(&state[0].to_be_bytes());
    tag[4..].copy_from_slice(&state[1].to_be_bytes());
    tag
}

impl Form for Best {
    type Keyed = Pads;

    fn keyed(key: &[u8]) -> Pads {
        let mut block = [0; 64];
        block[..key.len()].copy_from_slice(key);
        let key = words(&block);
        Pads { inner: after(key.map(|w| w ^ 0x36363636)), outer: after(key.map(|w| w ^ 0x5c5c5c5c)) }
    }

    fn mac(key: &Pads, parts: [&[u8]; 3]) -> Tag {
        let inner = after_last(&key.inner, 64, &parts);
        let mut last = [0; 16];
        last[..8].copy_from_slice(&inner);
        last[8] = 0x80000000;
        last[15] = 8 * (64 + 32);
        let mut outer = key.outer;
        compress::<true>(&mut outer, &last);
        first_words(&outer)
    }

    fn hash(first: &[u8], second: &[u8]) -> Tag {
        first_words(&after_last(&INITIAL, 0, &[first, second]))
    }

    fn encrypt<const N: usize>(key: &Block, blocks: [Block; N]) -> [Block; N] {
        let keys = Tables::to_encrypt(key);
        blocks.map(|b| keys.encrypt(&b))
    }

    fn decrypt<const N: usize>(key: &Block, blocks: [Block; N]) -> [Block; N] {
        let keys = Tables::to_decrypt(key);
        blocks.map(|b| keys.decrypt(&b))
    }

    fn encrypt256(key: &[u8; 32], blocks: [Block; 2]) -> [Block; 2] {
        let keys = Tables::to_encrypt256(key);
        blocks.map(|b| keys.encrypt(&b))
    }
}
