//! The tag's hashing, block work and rules in Rust without proofs, written from the papers, FIPS 180-4, FIPS 197 and RFC 2104: what the proved
//! library is measured against. Two forms of the cryptographic work (forms.rs) under one set of rules (tag.rs).
pub mod aes;
pub mod forms;
pub mod identifier;
pub mod record;
pub mod sha256;
pub mod tag;
pub mod unit;

use forms::Form;
use tag::{Answered, NOT_AUTHENTICATED, NOT_WELL_FORMED, NO_ROOM, ROOM};
use unit::Unit;

/// One number for a call's end, as include/tag.h has it.
fn code(answered: Answered) -> u64 {
    match answered {
        Ok(bytes) => bytes as u64,
        Err(refusal) => 256 + refusal as u64,
    }
}

/// A call on the record: the unit is taken out of the bytes, and put back where the call changed it.
fn on_record(record: &mut [u8], answer: &mut [u8], call: impl FnOnce(&mut Unit, &mut [u8]) -> Answered) -> u64 {
    if answer.len() < ROOM {
        return code(Err(NO_ROOM));
    }
    let Some(mut unit) = record::decode(record) else { return code(Err(NOT_WELL_FORMED)) };
    let answered = call(&mut unit, answer);
    if !matches!(answered, Err(refusal) if refusal < NOT_AUTHENTICATED) {
        record::encode(&unit, record);
    }
    code(answered)
}

#[inline(never)]
pub fn read_on_record(record: &mut [u8], nonce: &[u8], answer: &mut [u8]) -> u64 {
    on_record(record, answer, |unit, answer| tag::read(unit, nonce, answer))
}

#[inline(never)]
pub fn write_on_record<F: Form>(record: &mut [u8], request: &[u8], reach: u32, answer: &mut [u8]) -> u64 {
    on_record(record, answer, |unit, answer| tag::write::<F>(unit, request, reach, answer))
}

#[inline(never)]
pub fn read(unit: &mut Unit, nonce: &[u8], answer: &mut [u8]) -> u64 {
    if answer.len() < ROOM {
        return code(Err(NO_ROOM));
    }
    code(tag::read(unit, nonce, answer))
}

#[inline(never)]
pub fn write<F: Form>(unit: &mut Unit, request: &[u8], reach: u32, answer: &mut [u8]) -> u64 {
    if answer.len() < ROOM {
        return code(Err(NO_ROOM));
    }
    code(tag::write::<F>(unit, request, reach, answer))
}
