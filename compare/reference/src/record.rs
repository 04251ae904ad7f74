//! The unit as a record of bytes: the fields of include/tag.h in their order, written anew from its comments.

use crate::tag::{Protection, Sound, Unit, NONCES, SLOTS};

pub const VERSION: u8 = 5;
pub const SIZE: usize = 403;

/// The fields in the record's order, each with its name in the header, in small letters.
pub fn fields(u: &Unit) -> Vec<(&'static str, Vec<u8>)> {
    let (kind, mask, volume, left) = match u.sound {
        Sound::Silent => (0, 0, 0, 0),
        Sound::Ringing { mask, volume, left } => (1, mask as u8, volume as u8, left as u16),
    };
    let protection = match u.protection {
        Protection::Off => 0,
        Protection::On { skip } => 1 + skip as u8,
    };
    vec![
        ("version", vec![VERSION]),
        ("settings-power", (u.power as u32).to_be_bytes().to_vec()),
        ("settings-components", vec![u.components as u8]),
        ("settings-selectable", vec![u.selectable as u8]),
        ("clock-seconds", u.seconds.to_be_bytes().to_vec()),
        ("clock-tenth", vec![u.tenth as u8]),
        ("nonces-count", vec![u.nonce_count as u8]),
        ("nonces-live", vec![u.live as u8]),
        ("nonces-bytes", u.nonces.concat()),
        ("accounts-count", u.key_count.to_be_bytes().to_vec()),
        ("owner-kind", vec![u.has_owner as u8]),
        ("owner-place", u.owner.to_be_bytes().to_vec()),
        ("accounts-keys", u.keys.concat()),
        ("identity-held", vec![u.has_identity as u8]),
        ("identity-bytes", u.identity.to_vec()),
        ("waiting-held", vec![u.has_waiting as u8]),
        ("waiting-bytes", u.waiting.to_vec()),
        ("sound-kind", vec![kind]),
        ("sound-mask", vec![mask]),
        ("sound-volume", vec![volume]),
        ("sound-left", left.to_be_bytes().to_vec()),
        ("ring-nonce", u.ring_nonce.to_vec()),
        ("protection", vec![protection]),
        ("consent", (u.consent as u16).to_be_bytes().to_vec()),
        ("pairing", vec![u.pairing as u8]),
        ("battery", vec![u.battery as u8]),
    ]
}

pub fn encode(u: &Unit) -> Vec<u8> {
    fields(u).into_iter().flat_map(|(_, bytes)| bytes).collect()
}

/// Where a field starts.
pub fn place(name: &str) -> usize {
    let unit = crate::tag::new_unit(0, 0, 0).unwrap();
    let mut at = 0;
    for (field, bytes) in fields(&unit) {
        if field == name {
            return at;
        }
        at += bytes.len();
    }
    panic!("no field {name}");
}

/// The bytes of a record that are not read yet.
struct Rest<'a>(&'a [u8]);

impl Rest<'_> {
    fn bytes<const N: usize>(&mut self) -> [u8; N] {
        let (first, rest) = self.0.split_at(N);
        self.0 = rest;
        first.try_into().unwrap()
    }
    fn byte(&mut self) -> u8 {
        self.bytes::<1>()[0]
    }
    fn flag(&mut self) -> Option<bool> {
        match self.byte() {
            0 => Some(false),
            1 => Some(true),
            _ => None,
        }
    }
}

/// The unit that bytes mean; none where their length or their version is wrong, a byte names no variant, or a variant that holds nothing
/// has something in its room.
pub fn decode(b: &[u8]) -> Option<Unit> {
    if b.len() != SIZE || b[0] != VERSION {
        return None;
    }
    let mut rest = Rest(&b[1..]);
    let power = i32::from_be_bytes(rest.bytes());
    let (components, selectable) = (rest.byte() as u32, rest.byte() as u32);
    let seconds = u32::from_be_bytes(rest.bytes());
    let tenth = rest.byte() as u32;
    let (nonce_count, live) = (rest.byte() as u32, rest.flag()?);
    let mut nonces = [[0; 8]; NONCES];
    nonces.iter_mut().for_each(|nonce| *nonce = rest.bytes());
    let key_count = u64::from_be_bytes(rest.bytes());
    let (has_owner, owner) = (rest.flag()?, u64::from_be_bytes(rest.bytes()));
    let mut keys = [[0; 16]; SLOTS];
    keys.iter_mut().for_each(|k| *k = rest.bytes());
    let (has_identity, identity) = (rest.flag()?, rest.bytes());
    let (has_waiting, waiting) = (rest.flag()?, rest.bytes());
    let (ringing, mask, volume) = (rest.flag()?, rest.byte() as u32, rest.byte() as u32);
    let left = u16::from_be_bytes(rest.bytes()) as u32;
    let ring_nonce = rest.bytes();
    let protection = match rest.byte() {
        0 => Protection::Off,
        n @ 1..=2 => Protection::On { skip: n == 2 },
        _ => return None,
    };
    let consent = u16::from_be_bytes(rest.bytes()) as u32;
    let (pairing, battery) = (rest.flag()?, rest.byte() as u32);
    if !has_owner && owner != 0 || !ringing && (mask, volume, left) != (0, 0, 0) {
        return None;
    }
    let sound = if ringing { Sound::Ringing { mask, volume, left } } else { Sound::Silent };
    Some(Unit {
        power,
        components,
        selectable,
        seconds,
        tenth,
        nonce_count,
        live,
        nonces,
        key_count,
        keys,
        has_owner,
        owner,
        has_identity,
        identity,
        has_waiting,
        waiting,
        sound,
        ring_nonce,
        protection,
        consent,
        pairing,
        battery,
    })
}
