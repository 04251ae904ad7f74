//! AES-128 and the encryption of AES-256 (FIPS 197), without proofs, in two forms: byte by byte over the boxes, and a column at a time over tables.
//! The boxes are worked out from their rule when the program is compiled, and the tables from the boxes.

const fn times(a: u8, b: u8) -> u8 {
    let (mut product, mut a, mut b) = (0, a, b);
    while b > 0 {
        if b & 1 == 1 {
            product ^= a;
        }
        a = (a << 1) ^ (a >> 7) * 0x1b;
        b >>= 1;
    }
    product
}

const fn boxes() -> ([u8; 256], [u8; 256]) {
    let (mut s, mut inverse) = ([0; 256], [0; 256]);
    // 3 generates the field's units, f6 is its inverse: p and q stay inverse to each other
    let (mut p, mut q) = (1u8, 1u8);
    let mut n = 0;
    while n < 256 {
        let b = if n == 255 { 0 } else { q };
        let at = if n == 255 { 0 } else { p };
        s[at as usize] = b ^ b.rotate_left(1) ^ b.rotate_left(2) ^ b.rotate_left(3) ^ b.rotate_left(4) ^ 0x63;
        inverse[s[at as usize] as usize] = at;
        p = times(p, 3);
        q = times(q, 0xf6);
        n += 1;
    }
    (s, inverse)
}

static S: [u8; 256] = boxes().0;
static INVERSE: [u8; 256] = boxes().1;

const fn columns(of: [u8; 256], by: [u8; 4], turned: u32) -> [u32; 256] {
    let mut t = [0; 256];
    let mut i = 0;
    while i < 256 {
        let b = of[i];
        let word = u32::from_be_bytes([times(b, by[0]), times(b, by[1]), times(b, by[2]), times(b, by[3])]);
        t[i] = word.rotate_right(8 * turned);
        i += 1;
    }
    t
}

const FORTH: [u8; 4] = [2, 1, 1, 3];
const BACK: [u8; 4] = [14, 9, 13, 11];
static E: [[u32; 256]; 4] = [columns(boxes().0, FORTH, 0), columns(boxes().0, FORTH, 1), columns(boxes().0, FORTH, 2), columns(boxes().0, FORTH, 3)];
static D: [[u32; 256]; 4] = [columns(boxes().1, BACK, 0), columns(boxes().1, BACK, 1), columns(boxes().1, BACK, 2), columns(boxes().1, BACK, 3)];

pub type Block = [u8; 16];

fn columns_of(block: &Block) -> [u32; 4] {
    [0, 4, 8, 12].map(|i| u32::from_be_bytes([block[i], block[i + 1], block[i + 2], block[i + 3]]))
}

fn block_of(columns: [u32; 4]) -> Block {
    let mut block = [0; 16];
    for (bytes, c) in block.chunks_exact_mut(4).zip(columns) {
        bytes.copy_from_slice(&c.to_be_bytes());
    }
    block
}

fn byte(word: u32, n: u32) -> usize {
    (word >> (24 - 8 * n) & 0xff) as usize
}

fn substituted(word: u32) -> u32 {
    boxed(&S, word, word, word, word)
}

/// The round keys, a column in a word: 11 of AES-128, 15 of AES-256.
type RoundKeys<const N: usize> = [[u32; 4]; N];

/// A round key from an earlier one and a word that is added to its first.
fn next([a, b, c, d]: [u32; 4], word: u32) -> [u32; 4] {
    let a = a ^ word;
    let b = a ^ b;
    let c = b ^ c;
    [a, b, c, c ^ d]
}

fn expanded(key: &Block) -> RoundKeys<11> {
    let mut keys = [[0; 4]; 11];
    keys[0] = columns_of(key);
    let mut constant = 1;
    for n in 1..11 {
        let last = keys[n - 1];
        keys[n] = next(last, substituted(last[3].rotate_left(8)) ^ (constant as u32) << 24);
        constant = twice(constant);
    }
    keys
}

fn expanded256(key: &[u8; 32]) -> RoundKeys<15> {
    let mut keys = [[0; 4]; 15];
    keys[0] = columns_of(key[..16].try_into().unwrap());
    keys[1] = columns_of(key[16..].try_into().unwrap());
    let mut constant = 1;
    for n in 2..15 {
        let last = keys[n - 1][3];
        let even = n % 2 == 0;
        let word = if even { substituted(last.rotate_left(8)) ^ (constant as u32) << 24 } else { substituted(last) };
        keys[n] = next(keys[n - 2], word);
        constant = if even { twice(constant) } else { constant };
    }
    keys
}

/// Each byte of a word times 02.
fn doubled(w: u32) -> u32 {
    let high = w >> 7 & 0x01010101;
    (w & 0x7f7f7f7f) << 1 ^ high ^ high << 1 ^ high << 3 ^ high << 4
}

/// A column mixed back, in a word.
fn unmixed_word(w: u32) -> u32 {
    let w = w ^ doubled(doubled(w ^ w.rotate_left(16)));
    let twice = doubled(w);
    twice ^ (w ^ twice).rotate_left(8) ^ w.rotate_left(16) ^ w.rotate_left(24)
}

/// Over tables: the round keys of one direction.
pub struct Tables<const N: usize>(RoundKeys<N>);

impl Tables<15> {
    pub fn to_encrypt256(key: &[u8; 32]) -> Self {
        Tables(expanded256(key))
    }
}

impl Tables<11> {
    pub fn to_encrypt(key: &Block) -> Self {
        Tables(expanded(key))
    }

    /// The equivalent inverse cipher: the keys in reverse, those of the middle rounds unmixed.
    pub fn to_decrypt(key: &Block) -> Self {
        let mut keys = expanded(key);
        keys.reverse();
        for word in keys[1..10].as_flattened_mut() {
            *word = unmixed_word(*word);
        }
        Tables(keys)
    }
}

impl<const N: usize> Tables<N> {
    #[inline(never)]
    pub fn encrypt(&self, block: &Block) -> Block {
        let [first, middle @ .., last] = &self.0[..] else { unreachable!() };
        let [mut a, mut b, mut c, mut d] = sum(columns_of(block), first);
        for k in middle {
            [a, b, c, d] = sum([looked_up(&E, a, b, c, d), looked_up(&E, b, c, d, a), looked_up(&E, c, d, a, b), looked_up(&E, d, a, b, c)], k);
        }
        block_of(sum([boxed(&S, a, b, c, d), boxed(&S, b, c, d, a), boxed(&S, c, d, a, b), boxed(&S, d, a, b, c)], last))
    }

    #[inline(never)]
    pub fn decrypt(&self, block: &Block) -> Block {
        let [first, middle @ .., last] = &self.0[..] else { unreachable!() };
        let [mut a, mut b, mut c, mut d] = sum(columns_of(block), first);
        for k in middle {
            [a, b, c, d] = sum([looked_up(&D, a, d, c, b), looked_up(&D, b, a, d, c), looked_up(&D, c, b, a, d), looked_up(&D, d, c, b, a)], k);
        }
        let i = &INVERSE;
        block_of(sum([boxed(i, a, d, c, b), boxed(i, b, a, d, c), boxed(i, c, b, a, d), boxed(i, d, c, b, a)], last))
    }
}

fn sum(a: [u32; 4], b: &[u32; 4]) -> [u32; 4] {
    [a[0] ^ b[0], a[1] ^ b[1], a[2] ^ b[2], a[3] ^ b[3]]
}

/// A column of the next state from one byte each of four columns, highest byte first.
fn looked_up(t: &[[u32; 256]; 4], a: u32, b: u32, c: u32, d: u32) -> u32 {
    t[0][byte(a, 0)] ^ t[1][byte(b, 1)] ^ t[2][byte(c, 2)] ^ t[3][byte(d, 3)]
}

fn boxed(t: &[u8; 256], a: u32, b: u32, c: u32, d: u32) -> u32 {
    u32::from_be_bytes([t[byte(a, 0)], t[byte(b, 1)], t[byte(c, 2)], t[byte(d, 3)]])
}

/// Byte by byte: the round keys.
pub struct Bytes<const N: usize>([Block; N]);

fn twice(b: u8) -> u8 {
    (b << 1) ^ (b >> 7) * 0x1b
}

fn mixed(s: Block) -> Block {
    let mut out = [0; 16];
    for (to, column) in out.chunks_exact_mut(4).zip(s.chunks_exact(4)) {
        let all = column[0] ^ column[1] ^ column[2] ^ column[3];
        for i in 0..4 {
            to[i] = column[i] ^ all ^ twice(column[i] ^ column[(i + 1) % 4]);
        }
    }
    out
}

fn unmixed(mut s: Block) -> Block {
    for column in s.chunks_exact_mut(4) {
        let even = twice(twice(column[0] ^ column[2]));
        let odd = twice(twice(column[1] ^ column[3]));
        for i in 0..4 {
            column[i] ^= if i % 2 == 0 { even } else { odd };
        }
    }
    mixed(s)
}

fn added(s: Block, key: &Block) -> Block {
    std::array::from_fn(|i| s[i] ^ key[i])
}

/// Rows shifted by `step` columns a row, and each byte looked up.
fn shifted(s: Block, step: usize, table: &[u8; 256]) -> Block {
    std::array::from_fn(|i| table[s[(i + 4 * step * (i % 4)) % 16] as usize])
}

impl Bytes<15> {
    pub fn new256(key: &[u8; 32]) -> Self {
        Bytes(expanded256(key).map(block_of))
    }
}

impl Bytes<11> {
    pub fn new(key: &Block) -> Self {
        Bytes(expanded(key).map(block_of))
    }
}

impl<const N: usize> Bytes<N> {
    #[inline(never)]
    pub fn encrypt(&self, block: &Block) -> Block {
        let mut s = added(*block, &self.0[0]);
        for key in &self.0[1..N - 1] {
            s = added(mixed(shifted(s, 1, &S)), key);
        }
        added(shifted(s, 1, &S), &self.0[N - 1])
    }

    #[inline(never)]
    pub fn decrypt(&self, block: &Block) -> Block {
        let mut s = added(*block, &self.0[N - 1]);
        for key in self.0[1..N - 1].iter().rev() {
            s = unmixed(added(shifted(s, 3, &INVERSE), key));
        }
        added(shifted(s, 3, &INVERSE), &self.0[0])
    }
}
