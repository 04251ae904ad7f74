//! SHA-256 (FIPS 180-4), HMAC (RFC 2104), AES-128 both ways and AES-256 encryption (FIPS 197), in the order of the standards.

// ---------------------------------------------------------------- SHA-256

/// FIPS 180-4, 4.2.2.
const K: [u32; 64] = [
    0x428a2f98, 0x71374491, 0xb5c0fbcf, 0xe9b5dba5, 0x3956c25b, 0x59f111f1, 0x923f82a4, 0xab1c5ed5,
    0xd807aa98, 0x12835b01, 0x243185be, 0x550c7dc3, 0x72be5d74, 0x80deb1fe, 0x9bdc06a7, 0xc19bf174,
    0xe49b69c1, 0xefbe4786, 0x0fc19dc6, 0x240ca1cc, 0x2de92c6f, 0x4a7484aa, 0x5cb0a9dc, 0x76f988da,
    0x983e5152, 0xa831c66d, 0xb00327c8, 0xbf597fc7, 0xc6e00bf3, 0xd5a79147, 0x06ca6351, 0x14292967,
    0x27b70a85, 0x2e1b2138, 0x4d2c6dfc, 0x53380d13, 0x650a7354, 0x766a0abb, 0x81c2c92e, 0x92722c85,
    0xa2bfe8a1, 0xa81a664b, 0xc24b8b70, 0xc76c51a3, 0xd192e819, 0xd6990624, 0xf40e3585, 0x106aa070,
    0x19a4c116, 0x1e376c08, 0x2748774c, 0x34b0bcb5, 0x391c0cb3, 0x4ed8aa4a, 0x5b9cca4f, 0x682e6ff3,
    0x748f82ee, 0x78a5636f, 0x84c87814, 0x8cc70208, 0x90befffa, 0xa4506ceb, 0xbef9a3f7, 0xc67178f2,
];

/// FIPS 180-4, 5.3.3.
const START: [u32; 8] = [
    0x6a09e667, 0xbb67ae85, 0x3c6ef372, 0xa54ff53a, 0x510e527f, 0x9b05688c, 0x1f83d9ab, 0x5be0cd19,
];

/// The hash of a message of any length.
pub fn sha256(message: &[u8]) -> [u8; 32] {
    // 5.1.1: one bit, zeros, the length in bits.
    let mut padded = message.to_vec();
    padded.push(0x80);
    while padded.len() % 64 != 56 {
        padded.push(0);
    }
    padded.extend_from_slice(&(message.len() as u64 * 8).to_be_bytes());

    let mut h = START;
    for block in padded.chunks(64) {
        // 6.2.2, step 1.
        let mut w = [0u32; 64];
        for t in 0..16 {
            w[t] = u32::from_be_bytes([block[4 * t], block[4 * t + 1], block[4 * t + 2], block[4 * t + 3]]);
        }
        for t in 16..64 {
            let x = w[t - 15];
            let s0 = x.rotate_right(7) ^ x.rotate_right(18) ^ (x >> 3);
            let y = w[t - 2];
            let s1 = y.rotate_right(17) ^ y.rotate_right(19) ^ (y >> 10);
            w[t] = s1.wrapping_add(w[t - 7]).wrapping_add(s0).wrapping_add(w[t - 16]);
        }
        // Steps 2 and 3.
        let [mut a, mut b, mut c, mut d, mut e, mut f, mut g, mut hh] = h;
        for t in 0..64 {
            let big1 = e.rotate_right(6) ^ e.rotate_right(11) ^ e.rotate_right(25);
            let ch = (e & f) ^ (!e & g);
            let t1 = hh
                .wrapping_add(big1)
                .wrapping_add(ch)
                .wrapping_add(K[t])
                .wrapping_add(w[t]);
            let big0 = a.rotate_right(2) ^ a.rotate_right(13) ^ a.rotate_right(22);
            let maj = (a & b) ^ (a & c) ^ (b & c);
            let t2 = big0.wrapping_add(maj);
            hh = g;
            g = f;
            f = e;
            e = d.wrapping_add(t1);
            d = c;
            c = b;
            b = a;
            a = t1.wrapping_add(t2);
        }
        // Step 4.
        for (place, word) in [a, b, c, d, e, f, g, hh].iter().enumerate() {
            h[place] = h[place].wrapping_add(*word);
        }
    }

    let mut digest = [0u8; 32];
    for (place, word) in h.iter().enumerate() {
        digest[4 * place..4 * place + 4].copy_from_slice(&word.to_be_bytes());
    }
    digest
}

// ---------------------------------------------------------------- HMAC

/// HMAC with SHA-256; a key over 64 bytes is hashed first.
pub fn hmac_sha256(key: &[u8], message: &[u8]) -> [u8; 32] {
    let mut room = [0u8; 64];
    if key.len() > 64 {
        room[..32].copy_from_slice(&sha256(key));
    } else {
        room[..key.len()].copy_from_slice(key);
    }
    let mut inner: Vec<u8> = room.iter().map(|b| b ^ 0x36).collect();
    inner.extend_from_slice(message);
    let mut outer: Vec<u8> = room.iter().map(|b| b ^ 0x5c).collect();
    outer.extend_from_slice(&sha256(&inner));
    sha256(&outer)
}

// ---------------------------------------------------------------- AES

/// Product in the byte field, modulo x^8 + x^4 + x^3 + x + 1 (FIPS 197, 4.2).
pub const fn times(a: u8, b: u8) -> u8 {
    let mut a = a;
    let mut b = b;
    let mut sum = 0u8;
    while b != 0 {
        if b & 1 == 1 {
            sum ^= a;
        }
        let carry = a & 0x80 != 0;
        a <<= 1;
        if carry {
            a ^= 0x1b;
        }
        b >>= 1;
    }
    sum
}

/// The inverse in the byte field is the 254th power; zero stays zero.
const fn inverse(a: u8) -> u8 {
    let mut power = 1u8;
    let mut n = 0;
    while n < 254 {
        power = times(power, a);
        n += 1;
    }
    power
}

const fn make_box() -> [u8; 256] {
    let mut table = [0u8; 256];
    let mut x = 0usize;
    while x < 256 {
        let i = inverse(x as u8);
        // The affine step, FIPS 197, 5.1.1.
        table[x] = i ^ i.rotate_left(1) ^ i.rotate_left(2) ^ i.rotate_left(3) ^ i.rotate_left(4) ^ 0x63;
        x += 1;
    }
    table
}

const fn make_inverse_box() -> [u8; 256] {
    let forward = make_box();
    let mut table = [0u8; 256];
    let mut x = 0usize;
    while x < 256 {
        table[forward[x] as usize] = x as u8;
        x += 1;
    }
    table
}

/// The substitution box, worked out from its rule.
#[allow(long_running_const_eval)]
pub static BOX: [u8; 256] = make_box();
/// The inverse of the substitution box.
#[allow(long_running_const_eval)]
pub static INVERSE_BOX: [u8; 256] = make_inverse_box();

/// FIPS 197, 5.2: the round keys of sixteen bytes, 11 for a key of 4 words, 15 for one of 8.
fn round_keys(key: &[u8]) -> Vec<[u8; 16]> {
    let key_words = key.len() / 4;
    let rounds = key_words + 6;
    let mut words: Vec<[u8; 4]> = key.chunks(4).map(|word| word.try_into().unwrap()).collect();
    let mut constant = 1u8;
    for i in key_words..4 * (rounds + 1) {
        let mut word = words[i - 1];
        if i % key_words == 0 {
            word = [
                BOX[word[1] as usize] ^ constant,
                BOX[word[2] as usize],
                BOX[word[3] as usize],
                BOX[word[0] as usize],
            ];
            constant = times(constant, 2);
        } else if key_words > 6 && i % key_words == 4 {
            word = word.map(|byte| BOX[byte as usize]);
        }
        words.push(core::array::from_fn(|j| words[i - key_words][j] ^ word[j]));
    }
    words.chunks(4).map(|columns| columns.concat().try_into().unwrap()).collect()
}

fn add_round_key(state: [u8; 16], key: &[u8; 16]) -> [u8; 16] {
    core::array::from_fn(|i| state[i] ^ key[i])
}

fn substitute(state: [u8; 16], table: &[u8; 256]) -> [u8; 16] {
    core::array::from_fn(|i| table[state[i] as usize])
}

// Byte i of the block is row i % 4, column i / 4 of the state.

fn shift_rows(state: [u8; 16]) -> [u8; 16] {
    core::array::from_fn(|i| {
        let (row, column) = (i % 4, i / 4);
        state[row + 4 * ((column + row) % 4)]
    })
}

fn inverse_shift_rows(state: [u8; 16]) -> [u8; 16] {
    core::array::from_fn(|i| {
        let (row, column) = (i % 4, i / 4);
        state[row + 4 * ((column + 4 - row) % 4)]
    })
}

/// Multiplies each column by the circulant matrix with this first row.
fn mix(state: [u8; 16], first_row: [u8; 4]) -> [u8; 16] {
    core::array::from_fn(|i| {
        let (row, column) = (i % 4, i / 4);
        let mut sum = 0u8;
        for j in 0..4 {
            sum ^= times(first_row[(j + 4 - row) % 4], state[4 * column + j]);
        }
        sum
    })
}

/// FIPS 197, 5.1.
fn encrypt(keys: &[[u8; 16]], block: &[u8; 16]) -> [u8; 16] {
    let last = keys.len() - 1;
    let mut state = add_round_key(*block, &keys[0]);
    for round in 1..last {
        state = substitute(state, &BOX);
        state = shift_rows(state);
        state = mix(state, [2, 3, 1, 1]);
        state = add_round_key(state, &keys[round]);
    }
    state = substitute(state, &BOX);
    state = shift_rows(state);
    add_round_key(state, &keys[last])
}

pub fn aes128_encrypt(key: &[u8; 16], block: &[u8; 16]) -> [u8; 16] {
    encrypt(&round_keys(key), block)
}

pub fn aes256_encrypt(key: &[u8; 32], block: &[u8; 16]) -> [u8; 16] {
    encrypt(&round_keys(key), block)
}

/// FIPS 197, 5.3.
pub fn aes128_decrypt(key: &[u8; 16], block: &[u8; 16]) -> [u8; 16] {
    let keys = round_keys(key);
    let mut state = add_round_key(*block, &keys[10]);
    for round in (1..10).rev() {
        state = inverse_shift_rows(state);
        state = substitute(state, &INVERSE_BOX);
        state = add_round_key(state, &keys[round]);
        state = mix(state, [14, 11, 13, 9]);
    }
    state = inverse_shift_rows(state);
    state = substitute(state, &INVERSE_BOX);
    add_round_key(state, &keys[0])
}

// ---------------------------------------------------------------- calls that can refuse

/// Refusal 7.
pub const SIZE: u8 = 7;
/// The longest message and the longest HMAC key.
pub const LONGEST: usize = 65_535;

/// The hash as a call: refusal 7 over 65,535 bytes or with an answer that isn't 32 bytes.
pub fn hash_call(message: &[u8], answer: &mut [u8]) -> Result<(), u8> {
    if message.len() > LONGEST || answer.len() != 32 {
        return Err(SIZE);
    }
    answer.copy_from_slice(&sha256(message));
    Ok(())
}

/// HMAC as a call; the limits are on the key and the message that the caller hands over.
pub fn hmac_call(key: &[u8], message: &[u8], answer: &mut [u8]) -> Result<(), u8> {
    if key.len() > LONGEST || message.len() > LONGEST || answer.len() != 32 {
        return Err(SIZE);
    }
    answer.copy_from_slice(&hmac_sha256(key, message));
    Ok(())
}

fn block_call(
    step: fn(&[u8; 16], &[u8; 16]) -> [u8; 16],
    key: &[u8],
    block: &[u8],
    answer: &mut [u8],
) -> Result<(), u8> {
    if key.len() != 16 || block.len() != 16 || answer.len() != 16 {
        return Err(SIZE);
    }
    let key: [u8; 16] = key.try_into().unwrap();
    let block: [u8; 16] = block.try_into().unwrap();
    answer.copy_from_slice(&step(&key, &block));
    Ok(())
}

/// One block encrypted, as a call.
pub fn encrypt_call(key: &[u8], block: &[u8], answer: &mut [u8]) -> Result<(), u8> {
    block_call(aes128_encrypt, key, block, answer)
}

/// One block encrypted with AES-256, as a call: refusal 7 unless the key has 32 bytes, block and answer 16.
pub fn encrypt256_call(key: &[u8], block: &[u8], answer: &mut [u8]) -> Result<(), u8> {
    if key.len() != 32 || block.len() != 16 || answer.len() != 16 {
        return Err(SIZE);
    }
    answer.copy_from_slice(&aes256_encrypt(key.try_into().unwrap(), block.try_into().unwrap()));
    Ok(())
}

/// One block decrypted, as a call.
pub fn decrypt_call(key: &[u8], block: &[u8], answer: &mut [u8]) -> Result<(), u8> {
    block_call(aes128_decrypt, key, block, answer)
}
