//! The unit's record of bytes, as include/tag.h lays it out: the one place here that knows where a field stands.
use crate::plain::unit::{Ring, Unit};

const VERSION: u8 = 0x05;
pub const SIZE: usize = 403;

/// Fields one after another.
struct Fields<'a>(&'a [u8]);

impl Fields<'_> {
    fn bytes<const N: usize>(&mut self) -> [u8; N] {
        let (field, rest) = self.0.split_at(N);
        self.0 = rest;
        field.try_into().unwrap()
    }

    fn byte(&mut self) -> u8 {
        self.bytes::<1>()[0]
    }

    fn flag(&mut self) -> Option<bool> {
        match self.byte() {
            0 => Some(false),
            1 => Some(true),
            _ => None,
        }
    }

    fn rows<const N: usize, const ROWS: usize>(&mut self) -> [[u8; N]; ROWS] {
        let (field, rest) = self.0.split_at(N * ROWS);
        self.0 = rest;
        let mut rows = [[0; N]; ROWS];
        rows.as_flattened_mut().copy_from_slice(field);
        rows
    }

    fn number(&mut self) -> Option<usize> {
        u64::from_be_bytes(self.bytes()).try_into().ok()
    }

    /// A flag and the bytes that are zero where it is off.
    fn held<const N: usize>(&mut self) -> Option<Option<[u8; N]>> {
        let (held, bytes) = (self.flag()?, self.bytes());
        match held {
            true => Some(Some(bytes)),
            false if bytes == [0; N] => Some(None),
            false => None,
        }
    }
}

fn ring(f: &mut Fields) -> Option<Option<Ring>> {
    let held = f.flag()?;
    let ring = Ring { mask: f.byte(), volume: f.byte(), left: u16::from_be_bytes(f.bytes()), nonce: f.bytes() };
    match held {
        true => Some(Some(ring)),
        false if ring == (Ring { mask: 0, volume: 0, left: 0, nonce: [0; 8] }) => Some(None),
        false => None,
    }
}

fn owner(f: &mut Fields) -> Option<Option<usize>> {
    let held = f.flag()?;
    let place = f.number()?;
    match held {
        true => Some(Some(place)),
        false if place == 0 => Some(None),
        false => None,
    }
}

/// The well-formed unit whose record these bytes are.
pub fn decode(bytes: &[u8]) -> Option<Unit> {
    if bytes.len() != SIZE {
        return None;
    }
    let mut f = Fields(bytes);
    if f.byte() != VERSION {
        return None;
    }
    let (power, components, selectable) = (i32::from_be_bytes(f.bytes()), f.byte(), f.byte());
    let (seconds, tenth) = (u32::from_be_bytes(f.bytes()), f.byte());
    let (issued, live, nonces) = (f.byte() as usize, f.flag()?, f.rows());
    let count = f.number()?;
    let owner = owner(&mut f)?;
    let keys = f.rows();
    let (identity, waiting) = (f.held()?, f.held()?);
    let ring = ring(&mut f)?;
    let protection = match f.byte() {
        0 => None,
        1 => Some(false),
        2 => Some(true),
        _ => return None,
    };
    let consent = u16::from_be_bytes(f.bytes());
    let (pairing, battery) = (f.flag()?, f.byte());
    let unit = Unit {
        power, components, selectable, seconds, tenth, issued, nonces, live, count, keys, owner, identity, waiting, ring, protection, consent, pairing,
        battery,
    };
    unit.well_formed().then_some(unit)
}

/// Room for fields one after another.
struct Room<'a>(&'a mut [u8]);

impl Room<'_> {
    fn put_all(&mut self, bytes: &[u8]) {
        let (field, rest) = std::mem::take(&mut self.0).split_at_mut(bytes.len());
        field.copy_from_slice(bytes);
        self.0 = rest;
    }

    fn put<const N: usize>(&mut self, bytes: [u8; N]) {
        self.put_all(&bytes);
    }

    fn held<const N: usize>(&mut self, bytes: Option<[u8; N]>) {
        self.put([bytes.is_some() as u8]);
        self.put(bytes.unwrap_or([0; N]));
    }
}

/// Writes the record of a unit.
pub fn encode(u: &Unit, bytes: &mut [u8]) {
    assert!(bytes.len() == SIZE);
    let mut r = Room(bytes);
    r.put([VERSION]);
    r.put(u.power.to_be_bytes());
    r.put([u.components, u.selectable]);
    r.put(u.seconds.to_be_bytes());
    r.put([u.tenth, u.issued as u8, u.live as u8]);
    r.put_all(u.nonces.as_flattened());
    r.put((u.count as u64).to_be_bytes());
    r.held(u.owner.map(|place| (place as u64).to_be_bytes()));
    r.put_all(u.keys.as_flattened());
    r.held(u.identity);
    r.held(u.waiting);
    let ring = u.ring.unwrap_or(Ring { mask: 0, volume: 0, left: 0, nonce: [0; 8] });
    r.put([u.ring.is_some() as u8, ring.mask, ring.volume]);
    r.put(ring.left.to_be_bytes());
    r.put(ring.nonce);
    r.put([u.protection.map_or(0, |skip| 1 + skip as u8)]);
    r.put(u.consent.to_be_bytes());
    r.put([u.pairing as u8, u.battery]);
}
