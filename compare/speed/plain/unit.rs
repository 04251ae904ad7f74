//! The unit as a plain struct.
use crate::plain::aes::Block;

pub const MOST_KEYS: usize = 10;
pub const MOST_NONCES: usize = 16;
pub type Nonce = [u8; 8];
pub type IdentityKey = [u8; 32];

#[derive(Clone, Copy, PartialEq, Debug)]
pub struct Ring {
    pub mask: u8,
    pub volume: u8,
    pub left: u16,
    pub nonce: Nonce,
}

#[derive(Clone, Copy, PartialEq, Debug)]
pub struct Unit {
    pub power: i32,
    pub components: u8,
    pub selectable: u8,
    pub seconds: u32,
    pub tenth: u8,
    /// How many issued nonces are held, the newest first.
    pub issued: usize,
    pub nonces: [Nonce; MOST_NONCES],
    /// Whether the newest is live.
    pub live: bool,
    /// How many account keys are held, the most recently used first.
    pub count: usize,
    pub keys: [Block; MOST_KEYS],
    /// A place among the keys.
    pub owner: Option<usize>,
    /// The identity key in force.
    pub identity: Option<IdentityKey>,
    /// The one that waits for the disconnect.
    pub waiting: Option<IdentityKey>,
    pub ring: Option<Ring>,
    /// Unwanted tracking protection: off, or on with the skip flag.
    pub protection: Option<bool>,
    pub consent: u16,
    pub pairing: bool,
    pub battery: u8,
}

/// A table of which the first rows are held, each as a number: they are distinct, and the rest is zero.
fn table_legal<T: PartialEq + Default, const ROWS: usize>(count: usize, rows: [T; ROWS]) -> bool {
    if count > ROWS {
        return false;
    }
    let (held, free) = rows.split_at(count);
    free.iter().all(|row| *row == T::default()) && (1..count).all(|i| !held[..i].contains(&held[i]))
}

impl Unit {
    pub fn ringable_mask(&self) -> u8 {
        (1 << self.components) - 1
    }

    pub fn window(&self) -> u32 {
        self.seconds & !1023
    }

    /// Issues a nonce; of seventeen the oldest goes.
    pub fn issue(&mut self, nonce: Nonce) {
        self.nonces.copy_within(..MOST_NONCES - 1, 1);
        self.nonces[0] = nonce;
        self.issued = (self.issued + 1).min(MOST_NONCES);
        self.live = true;
    }

    /// The key at a place was used: it comes first, and the owner's place follows.
    pub fn use_key(&mut self, place: usize) {
        self.keys[..=place].rotate_right(1);
        self.owner = self.owner.map(|owner| match owner.cmp(&place) {
            std::cmp::Ordering::Less => owner + 1,
            std::cmp::Ordering::Equal => 0,
            std::cmp::Ordering::Greater => owner,
        });
    }

    /// What "What a unit holds" says and the types of the fields do not.
    pub fn well_formed(&self) -> bool {
        self.settings_legal() && self.tables_legal() && self.sound_legal() && self.rest_legal()
    }

    fn settings_legal(&self) -> bool {
        (-100..=20).contains(&self.power) && self.components <= 3 && self.selectable <= 1 && self.tenth <= 9
    }

    fn tables_legal(&self) -> bool {
        self.owner.is_none_or(|place| place < self.count)
            && table_legal(self.count, self.keys.map(u128::from_ne_bytes))
            && table_legal(self.issued, self.nonces.map(u64::from_ne_bytes))
    }

    fn sound_legal(&self) -> bool {
        let Some(ring) = self.ring else { return true };
        self.identity.is_some()
            && ring.mask != 0
            && ring.mask & !self.ringable_mask() == 0
            && ring.volume <= 3
            && (self.selectable == 1 || ring.volume == 0)
            && (1..=6000).contains(&ring.left)
    }

    fn rest_legal(&self) -> bool {
        (self.issued > 0 || !self.live)
            && (self.identity.is_none() && self.waiting.is_none() || self.owner.is_some())
            && (self.protection.is_none() || self.identity.is_some())
            && self.consent <= 600
            && self.battery <= 3
    }
}
