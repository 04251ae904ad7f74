//! The calls over a record of bytes, as include/tag.h has them, answered by the reference.

use crate::record::{decode, encode, SIZE};
use crate::tag::{self, NOT_WELL_FORMED, NO_ROOM, ROOM};

#[derive(Clone, Debug)]
pub enum Call {
    New(i32, u32, u32),
    Read(Vec<u8>),
    Write(Vec<u8>, u32),
    Button,
    Elapsed(u32),
    Disconnect,
    Pairing(u32),
    Battery(u32),
    AccountKey(Vec<u8>),
    Frame,
    Sleep,
}

impl Call {
    /// The call's name, as the replay file has it where it is an event.
    pub fn name(&self) -> &'static str {
        match self {
            Call::New(..) => "new",
            Call::Read(_) => "read",
            Call::Write(..) => "write",
            Call::Button => "button",
            Call::Elapsed(_) => "elapsed",
            Call::Disconnect => "disconnect",
            Call::Pairing(_) => "pairing",
            Call::Battery(_) => "battery",
            Call::AccountKey(_) => "key",
            Call::Frame => "frame",
            Call::Sleep => "sleep",
        }
    }

    /// Whether it takes answer bytes.
    pub fn answers(&self) -> bool {
        matches!(self, Call::Read(_) | Call::Write(..) | Call::Button | Call::Elapsed(_) | Call::Frame)
    }
}

/// A refusal in the number that a call gives.
pub const REFUSAL_BASE: u64 = 256;
/// The tenth at which a ring ended, and the tenths that the unit may sleep, in the number that a call gives.
pub const ENDED_BASE: u64 = 65536;

fn refused(refusal: u8) -> u64 {
    REFUSAL_BASE + refusal as u64
}

fn number(result: Result<usize, u8>) -> u64 {
    match result {
        Ok(count) => count as u64,
        Err(refusal) => refused(refusal),
    }
}

/// Makes the call: the number it gives, with the record and the answer bytes changed where it changes them.
pub fn run(call: &Call, record: &mut Vec<u8>, answer: &mut [u8]) -> u64 {
    if let Call::New(power, components, selectable) = call {
        if record.len() != SIZE {
            return refused(NOT_WELL_FORMED);
        }
        return match tag::new_unit(*power, *components, *selectable) {
            Ok(unit) => {
                *record = encode(&unit);
                0
            }
            Err(refusal) => refused(refusal),
        };
    }
    let Some(mut unit) = decode(record) else {
        return refused(if call.answers() && answer.len() < ROOM { NO_ROOM } else { NOT_WELL_FORMED });
    };
    let u = &mut unit;
    let result = match call {
        Call::New(..) => unreachable!(),
        Call::Read(nonce) => number(tag::read(u, nonce, answer)),
        Call::Write(data, reach) => number(tag::write(u, data, *reach, answer)),
        Call::Button => number(tag::button(u, answer)),
        Call::Elapsed(tenths) => match tag::elapsed(u, *tenths, answer) {
            Ok(passed) => passed.written as u64 + ENDED_BASE * passed.at as u64,
            Err(refusal) => refused(refusal),
        },
        Call::Disconnect => number(tag::disconnect(u).map(|_| 0)),
        Call::Pairing(on) => number(tag::pairing(u, *on != 0).map(|_| 0)),
        Call::Battery(level) => number(tag::battery(u, *level).map(|_| 0)),
        Call::AccountKey(key) => number(tag::account_key(u, key).map(|_| 0)),
        Call::Frame => number(tag::frame(u, answer)),
        Call::Sleep => match tag::sleep(u) {
            Ok(tenths) => ENDED_BASE * tenths as u64,
            Err(refusal) => refused(refusal),
        },
    };
    let code = result % ENDED_BASE;
    if code < REFUSAL_BASE || (refused(0x80)..=refused(0x82)).contains(&code) {
        *record = encode(&unit);
    }
    result
}
