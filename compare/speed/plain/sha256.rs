//! SHA-256 (FIPS 180-4), without proofs: sixteen turns in a row, four times, over a schedule of sixteen words that is renewed in place. Where it is
//! unrolled, the last three times are no loop: twice the code, and the constants stand in the instructions.

const K: [u32; 64] = [
    0x428a2f98, 0x71374491, 0xb5c0fbcf, 0xe9b5dba5, 0x3956c25b, 0x59f111f1, 0x923f82a4, 0xab1c5ed5, 0xd807aa98, 0x12835b01, 0x243185be,
    0x550c7dc3, 0x72be5d74, 0x80deb1fe, 0x9bdc06a7, 0xc19bf174, 0xe49b69c1, 0xefbe4786, 0x0fc19dc6, 0x240ca1cc, 0x2de92c6f, 0x4a7484aa,
    0x5cb0a9dc, 0x76f988da, 0x983e5152, 0xa831c66d, 0xb00327c8, 0xbf597fc7, 0xc6e00bf3, 0xd5a79147, 0x06ca6351, 0x14292967, 0x27b70a85,
    0x2e1b2138, 0x4d2c6dfc, 0x53380d13, 0x650a7354, 0x766a0abb, 0x81c2c92e, 0x92722c85, 0xa2bfe8a1, 0xa81a664b, 0xc24b8b70, 0xc76c51a3,
    0xd192e819, 0xd6990624, 0xf40e3585, 0x106aa070, 0x19a4c116, 0x1e376c08, 0x2748774c, 0x34b0bcb5, 0x391c0cb3, 0x4ed8aa4a, 0x5b9cca4f,
    0x682e6ff3, 0x748f82ee, 0x78a5636f, 0x84c87814, 0x8cc70208, 0x90befffa, 0xa4506ceb, 0xbef9a3f7, 0xc67178f2,
];

pub type State = [u32; 8];
pub type Words = [u32; 16];

pub const INITIAL: State = [0x6a09e667, 0xbb67ae85, 0x3c6ef372, 0xa54ff53a, 0x510e527f, 0x9b05688c, 0x1f83d9ab, 0x5be0cd19];

macro_rules! turn {
    ($a:ident $b:ident $c:ident $d:ident $e:ident $f:ident $g:ident $h:ident, $k:expr, $w:expr) => {
        let t1 = $h
            .wrapping_add($e.rotate_right(6) ^ $e.rotate_right(11) ^ $e.rotate_right(25))
            .wrapping_add($g ^ ($e & ($f ^ $g)))
            .wrapping_add($k)
            .wrapping_add($w);
        $d = $d.wrapping_add(t1);
        $h = t1
            .wrapping_add($a.rotate_right(2) ^ $a.rotate_right(13) ^ $a.rotate_right(22))
            .wrapping_add(($a & $b) | ($c & ($a | $b)));
    };
}

macro_rules! sixteen {
    ($v:ident, $w:ident, $k:expr, $word:ident) => {
        let [mut a, mut b, mut c, mut d, mut e, mut f, mut g, mut h] = $v;
        turn!(a b c d e f g h, K[$k], $word(&mut $w, 0));
        turn!(h a b c d e f g, K[$k + 1], $word(&mut $w, 1));
        turn!(g h a b c d e f, K[$k + 2], $word(&mut $w, 2));
        turn!(f g h a b c d e, K[$k + 3], $word(&mut $w, 3));
        turn!(e f g h a b c d, K[$k + 4], $word(&mut $w, 4));
        turn!(d e f g h a b c, K[$k + 5], $word(&mut $w, 5));
        turn!(c d e f g h a b, K[$k + 6], $word(&mut $w, 6));
        turn!(b c d e f g h a, K[$k + 7], $word(&mut $w, 7));
        turn!(a b c d e f g h, K[$k + 8], $word(&mut $w, 8));
        turn!(h a b c d e f g, K[$k + 9], $word(&mut $w, 9));
        turn!(g h a b c d e f, K[$k + 10], $word(&mut $w, 10));
        turn!(f g h a b c d e, K[$k + 11], $word(&mut $w, 11));
        turn!(e f g h a b c d, K[$k + 12], $word(&mut $w, 12));
        turn!(d e f g h a b c, K[$k + 13], $word(&mut $w, 13));
        turn!(c d e f g h a b, K[$k + 14], $word(&mut $w, 14));
        turn!(b c d e f g h a, K[$k + 15], $word(&mut $w, 15));
        $v = [a, b, c, d, e, f, g, h];
    };
}

#[inline(always)]
fn given(w: &mut Words, t: usize) -> u32 {
    w[t]
}

#[inline(always)]
fn renewed(w: &mut Words, t: usize) -> u32 {
    let (a, b) = (w[(t + 1) % 16], w[(t + 14) % 16]);
    w[t] = w[t]
        .wrapping_add(a.rotate_right(7) ^ a.rotate_right(18) ^ (a >> 3))
        .wrapping_add(w[(t + 9) % 16])
        .wrapping_add(b.rotate_right(17) ^ b.rotate_right(19) ^ (b >> 10));
    w[t]
}

/// The hash value after one more block, given as words.
#[inline(never)]
pub fn compress<const UNROLLED: bool>(state: &mut State, words: &Words) {
    let mut w = *words;
    let mut v = *state;
    sixteen!(v, w, 0, given);
    if UNROLLED {
        sixteen!(v, w, 16, renewed);
        sixteen!(v, w, 32, renewed);
        sixteen!(v, w, 48, renewed);
    } else {
        for k in [16, 32, 48] {
            sixteen!(v, w, k, renewed);
        }
    }
    for (s, x) in state.iter_mut().zip(v) {
        *s = s.wrapping_add(x);
    }
}

pub fn words(block: &[u8; 64]) -> Words {
    let mut w = [0; 16];
    for (word, bytes) in w.iter_mut().zip(block.chunks_exact(4)) {
        *word = u32::from_be_bytes(bytes.try_into().unwrap());
    }
    w
}

pub fn bytes(state: &State) -> [u8; 32] {
    let mut out = [0; 32];
    for (bytes, word) in out.chunks_exact_mut(4).zip(state) {
        bytes.copy_from_slice(&word.to_be_bytes());
    }
    out
}

/// A hash that takes its message in parts.
pub struct Hash<const UNROLLED: bool> {
    state: State,
    block: [u8; 64],
    length: u64,
}

impl<const UNROLLED: bool> Hash<UNROLLED> {
    pub fn new() -> Self {
        Hash { state: INITIAL, block: [0; 64], length: 0 }
    }

    pub fn add(&mut self, mut part: &[u8]) {
        let held = (self.length % 64) as usize;
        self.length += part.len() as u64;
        if held > 0 {
            let n = part.len().min(64 - held);
            self.block[held..held + n].copy_from_slice(&part[..n]);
            part = &part[n..];
            if held + n < 64 {
                return;
            }
            compress::<UNROLLED>(&mut self.state, &words(&self.block));
        }
        let mut blocks = part.chunks_exact(64);
        for block in &mut blocks {
            compress::<UNROLLED>(&mut self.state, &words(block.try_into().unwrap()));
        }
        let rest = blocks.remainder();
        self.block[..rest.len()].copy_from_slice(rest);
    }

    pub fn end(mut self) -> [u8; 32] {
        let held = (self.length % 64) as usize;
        self.block[held] = 0x80;
        self.block[held + 1..].fill(0);
        if held >= 56 {
            compress::<UNROLLED>(&mut self.state, &words(&self.block));
            self.block.fill(0);
        }
        self.block[56..].copy_from_slice(&(8 * self.length).to_be_bytes());
        compress::<UNROLLED>(&mut self.state, &words(&self.block));
        bytes(&self.state)
    }
}

pub fn sha256<const UNROLLED: bool>(message: &[u8]) -> [u8; 32] {
    let mut h = Hash::<UNROLLED>::new();
    h.add(message);
    h.end()
}
