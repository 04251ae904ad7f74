//! The proved library's calls as include/tag.h declares them: the one place here that knows their arguments.

extern "C" {
    fn tag_new(record: *mut u8, n: u64, power: i32, components: u32, selectable: u32) -> u64;
    fn tag_read(record: *mut u8, n: u64, nonce: *const u8, m: u64, answer: *mut u8, room: u64) -> u64;
    fn tag_write(record: *mut u8, n: u64, request: *const u8, m: u64, reach: u32, answer: *mut u8, room: u64) -> u64;
    fn tag_button(record: *mut u8, n: u64, answer: *mut u8, room: u64) -> u64;
    fn tag_elapsed(record: *mut u8, n: u64, tenths: u32, answer: *mut u8, room: u64) -> u64;
    fn tag_pairing(record: *mut u8, n: u64, on: u32) -> u64;
    fn tag_account_key(record: *mut u8, n: u64, key: *const u8, m: u64) -> u64;
    fn tag_disconnect(record: *mut u8, n: u64) -> u64;
    fn tag_sha256(message: *const u8, n: u64, answer: *mut u8, room: u64) -> u64;
    fn tag_hmac_sha256(key: *const u8, n: u64, message: *const u8, m: u64, answer: *mut u8, room: u64) -> u64;
    fn tag_aes128_encrypt(key: *const u8, n: u64, block: *const u8, m: u64, answer: *mut u8, room: u64) -> u64;
    fn tag_aes128_decrypt(key: *const u8, n: u64, block: *const u8, m: u64, answer: *mut u8, room: u64) -> u64;
    fn tag_aes256_encrypt(key: *const u8, n: u64, block: *const u8, m: u64, answer: *mut u8, room: u64) -> u64;
}

pub fn new(u: &mut [u8], components: u32, selectable: u32) -> u64 {
    unsafe { tag_new(u.as_mut_ptr(), u.len() as u64, -20, components, selectable) }
}

pub fn read(u: &mut [u8], nonce: &[u8], answer: &mut [u8]) -> u64 {
    unsafe { tag_read(u.as_mut_ptr(), u.len() as u64, nonce.as_ptr(), nonce.len() as u64, answer.as_mut_ptr(), answer.len() as u64) }
}

pub fn write(u: &mut [u8], request: &[u8], reach: u32, answer: &mut [u8]) -> u64 {
    unsafe { tag_write(u.as_mut_ptr(), u.len() as u64, request.as_ptr(), request.len() as u64, reach, answer.as_mut_ptr(), answer.len() as u64) }
}

pub fn button(u: &mut [u8], answer: &mut [u8]) -> u64 {
    unsafe { tag_button(u.as_mut_ptr(), u.len() as u64, answer.as_mut_ptr(), answer.len() as u64) }
}

pub fn elapsed(u: &mut [u8], tenths: u32, answer: &mut [u8]) -> u64 {
    unsafe { tag_elapsed(u.as_mut_ptr(), u.len() as u64, tenths, answer.as_mut_ptr(), answer.len() as u64) }
}

pub fn pairing(u: &mut [u8], on: u32) -> u64 {
    unsafe { tag_pairing(u.as_mut_ptr(), u.len() as u64, on) }
}

pub fn account_key(u: &mut [u8], key: &[u8]) -> u64 {
    unsafe { tag_account_key(u.as_mut_ptr(), u.len() as u64, key.as_ptr(), key.len() as u64) }
}

pub fn disconnect(u: &mut [u8]) -> u64 {
    unsafe { tag_disconnect(u.as_mut_ptr(), u.len() as u64) }
}

pub fn sha256(_: &[u8], message: &[u8], answer: &mut [u8]) {
    unsafe { tag_sha256(message.as_ptr(), message.len() as u64, answer.as_mut_ptr(), 32) };
}

pub fn hmac(key: &[u8], message: &[u8], answer: &mut [u8]) {
    unsafe { tag_hmac_sha256(key.as_ptr(), key.len() as u64, message.as_ptr(), message.len() as u64, answer.as_mut_ptr(), 32) };
}

pub fn encrypt(key: &[u8], block: &[u8], answer: &mut [u8]) {
    unsafe { tag_aes128_encrypt(key.as_ptr(), 16, block.as_ptr(), 16, answer.as_mut_ptr(), 16) };
}

pub fn decrypt(key: &[u8], block: &[u8], answer: &mut [u8]) {
    unsafe { tag_aes128_decrypt(key.as_ptr(), 16, block.as_ptr(), 16, answer.as_mut_ptr(), 16) };
}

/// By AES-256.
pub fn encrypt256(key: &[u8], block: &[u8], answer: &mut [u8]) {
    unsafe { tag_aes256_encrypt(key.as_ptr(), 32, block.as_ptr(), 16, answer.as_mut_ptr(), 16) };
}
