//! The reader for the frames that the tag sends.

use crate::primitives::sha256;

/// The refusal of a text that is no frame.
pub const NO_SUCH_FRAME: u8 = 8;

/// What stands in a frame.
#[derive(Clone, Copy, Debug, PartialEq, Eq)]
pub struct Parts {
    pub identifier: [u8; 20],
    pub protected: bool,
    pub flags: Option<u8>,
}

/// A refusal: its number and, for 8, the place of the first wrong byte.
#[derive(Clone, Copy, Debug, PartialEq, Eq)]
pub struct Refused {
    pub number: u8,
    pub place: usize,
}

fn wrong_at(place: usize) -> Refused {
    Refused { number: NO_SUCH_FRAME, place }
}

/// Whether a byte may stand at a place of a frame that says, by its byte 3, whether it has flags.
fn may_stand(place: usize, byte: u8, with_flags: bool) -> bool {
    match place {
        0 => byte == 0x02,
        1 => byte == 0x01,
        2 => byte == 0x06,
        3 => byte == 0x18 || byte == 0x19,
        4 => byte == 0x16,
        5 => byte == 0xaa,
        6 => byte == 0xfe,
        // The frame type: under protection the flags are never left out.
        7 => byte == 0x40 || with_flags && byte == 0x41,
        8..=27 => true,
        28 => with_flags,
        _ => false,
    }
}

/// Reads a frame without its r.
pub fn read(text: &[u8]) -> Result<Parts, Refused> {
    let with_flags = text.get(3) == Some(&0x19);
    for (place, byte) in text.iter().enumerate() {
        if !may_stand(place, *byte, with_flags) {
            return Err(wrong_at(place));
        }
    }
    let whole = if with_flags { 29 } else { 28 };
    if text.len() < whole {
        return Err(wrong_at(text.len()));
    }
    Ok(Parts {
        identifier: text[8..28].try_into().unwrap(),
        protected: text[7] == 0x41,
        flags: text.get(28).copied(),
    })
}

/// Reads a frame with its r, which recovers the battery level.
pub fn read_with_r(text: &[u8], r: &[u8]) -> Result<(Parts, u8), Refused> {
    let parts = read(text)?;
    if r.len() != 20 {
        return Err(Refused { number: 1, place: 0 });
    }
    let Some(flags) = parts.flags else {
        return Ok((parts, 0));
    };
    let plain = flags ^ sha256(r)[31];
    let reserved = plain & 0b1111_1000;
    let battery = plain >> 1 & 0b11;
    let protected = plain & 1 == 1;
    if reserved != 0 || protected != parts.protected || plain == 0 {
        return Err(wrong_at(28));
    }
    Ok((parts, battery))
}

/// The frame that these parts make.
pub fn render(parts: &Parts) -> Vec<u8> {
    let mut text = vec![0x02, 0x01, 0x06];
    text.push(if parts.flags.is_some() { 0x19 } else { 0x18 });
    text.extend([0x16, 0xaa, 0xfe]);
    text.push(if parts.protected { 0x41 } else { 0x40 });
    text.extend(parts.identifier);
    text.extend(parts.flags);
    text
}
