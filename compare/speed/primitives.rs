//! The primitives side by side: ours, Rust without proofs, mbedTLS and OpenSSL.
use crate::library;
use crate::plain::aes::{Bytes, Tables};
use crate::plain::forms;
use crate::plain::sha256;

extern "C" {
    fn mbedtls_hash(message: *const u8, n: usize, answer: *mut u8);
    fn openssl_hash(message: *const u8, n: usize, answer: *mut u8);
    fn mbedtls_block(encrypt: i32, key: *const u8, bits: u32, block: *const u8, answer: *mut u8);
    fn openssl_block(encrypt: i32, key: *const u8, bits: u32, block: *const u8, answer: *mut u8);
}

/// Key, message or block, answer.
pub type Primitive = fn(&[u8], &[u8], &mut [u8]);

pub struct Row {
    pub name: &'static str,
    /// The bytes of the message or block.
    pub size: usize,
    /// The calls in a turn.
    pub calls: usize,
    pub programs: &'static [(&'static str, Primitive)],
}

const HASHES: &[(&str, Primitive)] = &[
    ("ours", library::sha256),
    ("rust", |_, m, a| a.copy_from_slice(&sha256::sha256::<false>(m))),
    ("unrolled", |_, m, a| a.copy_from_slice(&sha256::sha256::<true>(m))),
    ("mbedtls", |_, m, a| unsafe { mbedtls_hash(m.as_ptr(), m.len(), a.as_mut_ptr()) }),
    ("openssl", |_, m, a| unsafe { openssl_hash(m.as_ptr(), m.len(), a.as_mut_ptr()) }),
];

const MACS: &[(&str, Primitive)] = &[("ours", |k, m, a| library::hmac(block(k), m, a)), ("rust", |k, m, a| a.copy_from_slice(&forms::hmac(block(k), m)))];

fn block(b: &[u8]) -> &[u8; 16] {
    b[..16].try_into().unwrap()
}

fn long_key(k: &[u8]) -> &[u8; 32] {
    k.try_into().unwrap()
}

const ENCRYPTIONS: &[(&str, Primitive)] = &[
    ("ours", library::encrypt),
    ("bytes", |k, b, a| a[..16].copy_from_slice(&Bytes::new(block(k)).encrypt(block(b)))),
    ("tables", |k, b, a| a[..16].copy_from_slice(&Tables::to_encrypt(block(k)).encrypt(block(b)))),
    ("mbedtls", |k, b, a| unsafe { mbedtls_block(1, k.as_ptr(), 128, b.as_ptr(), a.as_mut_ptr()) }),
    ("openssl", |k, b, a| unsafe { openssl_block(1, k.as_ptr(), 128, b.as_ptr(), a.as_mut_ptr()) }),
];

const DECRYPTIONS: &[(&str, Primitive)] = &[
    ("ours", library::decrypt),
    ("bytes", |k, b, a| a[..16].copy_from_slice(&Bytes::new(block(k)).decrypt(block(b)))),
    ("tables", |k, b, a| a[..16].copy_from_slice(&Tables::to_decrypt(block(k)).decrypt(block(b)))),
    ("mbedtls", |k, b, a| unsafe { mbedtls_block(0, k.as_ptr(), 128, b.as_ptr(), a.as_mut_ptr()) }),
    ("openssl", |k, b, a| unsafe { openssl_block(0, k.as_ptr(), 128, b.as_ptr(), a.as_mut_ptr()) }),
];

const LONG_ENCRYPTIONS: &[(&str, Primitive)] = &[
    ("ours", library::encrypt256),
    ("bytes", |k, b, a| a[..16].copy_from_slice(&Bytes::new256(long_key(k)).encrypt(block(b)))),
    ("tables", |k, b, a| a[..16].copy_from_slice(&Tables::to_encrypt256(long_key(k)).encrypt(block(b)))),
    ("mbedtls", |k, b, a| unsafe { mbedtls_block(1, k.as_ptr(), 256, b.as_ptr(), a.as_mut_ptr()) }),
    ("openssl", |k, b, a| unsafe { openssl_block(1, k.as_ptr(), 256, b.as_ptr(), a.as_mut_ptr()) }),
];

pub const ROWS: &[Row] = &[
    Row { name: "SHA-256, 64 bytes", size: 64, calls: 4000, programs: HASHES },
    Row { name: "SHA-256, 1,024 bytes", size: 1024, calls: 500, programs: HASHES },
    Row { name: "SHA-256, 65,535 bytes", size: 65535, calls: 10, programs: HASHES },
    Row { name: "HMAC, 16-byte key, 39 bytes", size: 39, calls: 2000, programs: MACS },
    Row { name: "AES-128 encrypt, with its key", size: 16, calls: 5000, programs: ENCRYPTIONS },
    Row { name: "AES-128 decrypt, with its key", size: 16, calls: 5000, programs: DECRYPTIONS },
    Row { name: "AES-256 encrypt, with its key", size: 16, calls: 5000, programs: LONG_ENCRYPTIONS },
];

/// That many calls, each on the answer of the one before it; the last answer.
pub fn run(primitive: Primitive, size: usize, calls: usize) -> [u8; 32] {
    let (key, mut message, mut answer) = ([7; 32], vec![0x5a; size], [0; 32]);
    for _ in 0..calls {
        message[..16].copy_from_slice(&answer[..16]);
        primitive(&key, &message, &mut answer);
    }
    answer
}
