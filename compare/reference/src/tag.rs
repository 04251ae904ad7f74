//! The unit record, when it is well formed, and the calls, each in the paper's order of rules.

use crate::identifier::{self, Identifier};
use crate::primitives::{aes128_decrypt, aes128_encrypt, hmac_sha256, sha256};

pub const NOT_AUTHENTICATED: u8 = 0x80;
pub const INVALID_VALUE: u8 = 0x81;
pub const NO_CONSENT: u8 = 0x82;
pub const OUT_OF_RANGE: u8 = 1;
pub const NOT_WELL_FORMED: u8 = 2;
pub const BAD_NONCE: u8 = 3;
pub const BAD_KEY: u8 = 4;
pub const NO_FRAME: u8 = 5;
pub const NO_ROOM: u8 = 6;

/// Answer bytes that a host must lend.
pub const ROOM: usize = 42;
/// Keys that a unit can hold.
pub const SLOTS: usize = 10;
/// Issued nonces that a unit remembers.
pub const NONCES: usize = 16;
/// Tenths of consent after a press.
pub const CONSENT: u32 = 600;
/// The longest ring, in tenths.
pub const LONGEST_RING: u32 = 6_000;

#[derive(Clone, Copy, Debug, PartialEq, Eq)]
pub enum Sound {
    Silent,
    Ringing { mask: u32, volume: u32, left: u32 },
}

#[derive(Clone, Copy, Debug, PartialEq, Eq)]
pub enum Protection {
    Off,
    On { skip: bool },
}

/// Everything a unit holds. Any values can stand here; `well_formed` says which are right.
#[derive(Clone, Debug, PartialEq, Eq)]
pub struct Unit {
    pub power: i32,
    pub components: u32,
    pub selectable: u32,
    pub seconds: u32,
    pub tenth: u32,
    /// The account keys, the most recently used first.
    pub key_count: u64,
    pub keys: [[u8; 16]; SLOTS],
    pub has_owner: bool,
    pub owner: u64,
    /// The identity key in force.
    pub has_identity: bool,
    pub identity: [u8; 32],
    /// The identity key that waits for the connection to end.
    pub has_waiting: bool,
    pub waiting: [u8; 32],
    /// The last issued nonces, the newest first; only that one can be live.
    pub nonce_count: u32,
    pub nonces: [[u8; 8]; NONCES],
    pub live: bool,
    pub sound: Sound,
    pub ring_nonce: [u8; 8],
    pub protection: Protection,
    pub consent: u32,
    pub pairing: bool,
    pub battery: u32,
}

/// The mask with as many ones as there are components.
pub fn ringable(components: u32) -> u32 {
    match components {
        0 => 0x00,
        1 => 0x01,
        2 => 0x03,
        _ => 0x07,
    }
}

/// The seconds with the low ten bits cleared.
pub fn window_of(seconds: u32) -> u32 {
    seconds - seconds % 1024
}

impl Unit {
    fn fresh(power: i32, components: u32, selectable: u32) -> Unit {
        Unit {
            power,
            components,
            selectable,
            seconds: 0,
            tenth: 0,
            key_count: 0,
            keys: [[0; 16]; SLOTS],
            has_owner: false,
            owner: 0,
            has_identity: false,
            identity: [0; 32],
            has_waiting: false,
            waiting: [0; 32],
            nonce_count: 0,
            nonces: [[0; 8]; NONCES],
            live: false,
            sound: Sound::Silent,
            ring_nonce: [0; 8],
            protection: Protection::Off,
            consent: 0,
            pairing: false,
            battery: 0,
        }
    }

    pub fn well_formed(&self) -> bool {
        // 1. Settings and the tenth.
        if self.power < -100 || self.power > 20 {
            return false;
        }
        if self.components > 3 || self.selectable > 1 || self.tenth > 9 {
            return false;
        }
        // 2. Keys.
        if self.key_count > SLOTS as u64 {
            return false;
        }
        let count = self.key_count as usize;
        for i in 0..count {
            for j in 0..i {
                if self.keys[i] == self.keys[j] {
                    return false;
                }
            }
        }
        for i in count..SLOTS {
            if self.keys[i] != [0; 16] {
                return false;
            }
        }
        // 3. Owner.
        if self.has_owner {
            if self.owner >= self.key_count {
                return false;
            }
        } else if self.owner != 0 {
            return false;
        }
        // 4. Identity key.
        if self.has_identity {
            if !self.has_owner {
                return false;
            }
        } else if self.identity != [0; 32] {
            return false;
        }
        // A waiting key needs an owner, but no key in force.
        if self.has_waiting {
            if !self.has_owner {
                return false;
            }
        } else if self.waiting != [0; 32] {
            return false;
        }
        // 5. Nonces.
        if self.nonce_count > NONCES as u32 {
            return false;
        }
        let count = self.nonce_count as usize;
        for i in 0..count {
            for j in 0..i {
                if self.nonces[i] == self.nonces[j] {
                    return false;
                }
            }
        }
        for i in count..NONCES {
            if self.nonces[i] != [0; 8] {
                return false;
            }
        }
        if self.live && count == 0 {
            return false;
        }
        // 6. Sound.
        match self.sound {
            Sound::Silent => {
                if self.ring_nonce != [0; 8] {
                    return false;
                }
            }
            Sound::Ringing { mask, volume, left } => {
                if !self.has_identity {
                    return false;
                }
                if mask == 0 || mask & !ringable(self.components) != 0 {
                    return false;
                }
                if volume > 3 || (self.selectable == 0 && volume != 0) {
                    return false;
                }
                if left < 1 || left > LONGEST_RING {
                    return false;
                }
            }
        }
        // 7. Protection.
        if self.protection != Protection::Off && !self.has_identity {
            return false;
        }
        // 8. Consent and battery.
        if self.consent > CONSENT || self.battery > 3 {
            return false;
        }
        true
    }

    // The functions below are used only on a well formed unit.

    fn held_keys(&self) -> &[[u8; 16]] {
        &self.keys[..self.key_count as usize]
    }

    fn issued(&self) -> &[[u8; 8]] {
        &self.nonces[..self.nonce_count as usize]
    }

    fn owner_key(&self) -> Option<[u8; 16]> {
        if self.has_owner {
            Some(self.keys[self.owner as usize])
        } else {
            None
        }
    }

    /// The key at this place was used: it comes first. The owner stays the same key.
    fn use_key(&mut self, place: usize) {
        let owner_key = self.owner_key();
        let key = self.keys[place];
        let others: Vec<[u8; 16]> = self.held_keys().iter().filter(|other| **other != key).copied().collect();
        self.keys[0] = key;
        self.keys[1..=others.len()].copy_from_slice(&others);
        self.find_owner(owner_key);
    }

    /// The owner's place after the keys have moved.
    fn find_owner(&mut self, owner_key: Option<[u8; 16]>) {
        if let Some(owner_key) = owner_key {
            self.owner = self.held_keys().iter().position(|key| *key == owner_key).unwrap() as u64;
        }
    }

    fn derived_key(&self, last: u8) -> [u8; 8] {
        let mut message = self.identity.to_vec();
        message.push(last);
        first_eight(&sha256(&message))
    }

    fn recovery_key(&self) -> [u8; 8] {
        self.derived_key(0x01)
    }

    fn ring_key(&self) -> [u8; 8] {
        self.derived_key(0x02)
    }

    fn protection_key(&self) -> [u8; 8] {
        self.derived_key(0x03)
    }

    fn key_proof(&self, nonce: &[u8; 8]) -> [u8; 8] {
        let mut message = self.identity.to_vec();
        message.extend_from_slice(nonce);
        first_eight(&sha256(&message))
    }

    fn make_silent(&mut self) {
        self.sound = Sound::Silent;
        self.ring_nonce = [0; 8];
    }

    /// The identifier of the current window, with its r: none without a key in force, or if r is 0.
    pub fn current_identifier(&self) -> Option<Identifier> {
        if self.has_identity {
            identifier::of(&self.identity, window_of(self.seconds))
        } else {
            None
        }
    }
}

fn first_eight(digest: &[u8; 32]) -> [u8; 8] {
    digest[..8].try_into().unwrap()
}

/// The tag that a request must carry.
pub fn request_tag(key: &[u8], nonce: &[u8; 8], id: u8, length: u8, additional: &[u8]) -> [u8; 8] {
    let mut message = vec![0x01];
    message.extend_from_slice(nonce);
    message.push(id);
    message.push(length);
    message.extend_from_slice(additional);
    first_eight(&hmac_sha256(key, &message))
}

/// A whole answer: ID, length, tag, data.
pub fn make_answer(key: &[u8], nonce: &[u8; 8], id: u8, data: &[u8]) -> Vec<u8> {
    let length = 8 + data.len() as u8;
    let mut message = vec![0x01];
    message.extend_from_slice(nonce);
    message.push(id);
    message.push(length);
    message.extend_from_slice(data);
    message.push(0x01);
    let tag = first_eight(&hmac_sha256(key, &message));
    let mut answer = vec![id, length];
    answer.extend_from_slice(&tag);
    answer.extend_from_slice(data);
    answer
}

/// A ring notice: status, mask and tenths left under the ring key.
fn ring_notice(ring_key: &[u8; 8], nonce: &[u8; 8], status: u8, mask: u32, left: u32) -> Vec<u8> {
    let left = (left as u16).to_be_bytes();
    make_answer(ring_key, nonce, 0x05, &[status, mask as u8, left[0], left[1]])
}

/// Writes the first part of the lent bytes and keeps the rest.
fn put(answer: &mut [u8], bytes: &[u8]) -> usize {
    answer[..bytes.len()].copy_from_slice(bytes);
    bytes.len()
}

fn encrypt_two(key: &[u8; 16], bytes: &[u8; 32]) -> [u8; 32] {
    let mut result = [0; 32];
    result[..16].copy_from_slice(&aes128_encrypt(key, bytes[..16].try_into().unwrap()));
    result[16..].copy_from_slice(&aes128_encrypt(key, bytes[16..].try_into().unwrap()));
    result
}

fn decrypt_two(key: &[u8; 16], bytes: &[u8; 32]) -> [u8; 32] {
    let mut result = [0; 32];
    result[..16].copy_from_slice(&aes128_decrypt(key, bytes[..16].try_into().unwrap()));
    result[16..].copy_from_slice(&aes128_decrypt(key, bytes[16..].try_into().unwrap()));
    result
}

// ---------------------------------------------------------------- new unit

pub fn new_unit(power: i32, components: u32, selectable: u32) -> Result<Unit, u8> {
    if power < -100 || power > 20 || components > 3 || selectable > 1 {
        return Err(OUT_OF_RANGE);
    }
    Ok(Unit::fresh(power, components, selectable))
}

// ---------------------------------------------------------------- read

/// Gives the count of bytes written.
pub fn read(unit: &mut Unit, nonce: &[u8], answer: &mut [u8]) -> Result<usize, u8> {
    if answer.len() < ROOM {
        return Err(NO_ROOM);
    }
    if !unit.well_formed() {
        return Err(NOT_WELL_FORMED);
    }
    if nonce.len() != 8 || unit.issued().iter().any(|old| old[..] == *nonce) {
        return Err(BAD_NONCE);
    }
    // It comes first; of seventeen, the oldest goes.
    let mut issued = unit.issued().to_vec();
    issued.insert(0, nonce.try_into().unwrap());
    issued.truncate(NONCES);
    unit.nonce_count = issued.len() as u32;
    unit.nonces[..issued.len()].copy_from_slice(&issued);
    unit.live = true;
    let mut bytes = vec![0x01];
    bytes.extend_from_slice(nonce);
    Ok(put(answer, &bytes))
}

// ---------------------------------------------------------------- write

/// Gives the count of bytes written. The reach is the mask of the parts that can be reached now.
pub fn write(unit: &mut Unit, data: &[u8], reach: u32, answer: &mut [u8]) -> Result<usize, u8> {
    if answer.len() < ROOM {
        return Err(NO_ROOM);
    }
    if !unit.well_formed() {
        return Err(NOT_WELL_FORMED);
    }
    if reach & !ringable(unit.components) != 0 {
        return Err(OUT_OF_RANGE);
    }
    // Every write from here on spends the live nonce, whatever follows.
    let was_live = unit.live;
    unit.live = false;

    // The shape.
    if data.len() < 2 {
        return Err(INVALID_VALUE);
    }
    let (id, length) = (data[0], data[1]);
    let legal = match id {
        0x00 | 0x01 | 0x04 | 0x06 => length == 8,
        0x02 => length == 40 || length == 48,
        0x03 | 0x08 => length == 16,
        0x05 => length == 12,
        0x07 => length == 8 || length == 9,
        _ => false,
    };
    if !legal || data.len() != length as usize + 2 {
        return Err(INVALID_VALUE);
    }

    // The live nonce.
    if !was_live {
        return Err(NOT_AUTHENTICATED);
    }
    let nonce = unit.nonces[0];
    let tag: [u8; 8] = data[2..10].try_into().unwrap();
    let additional = &data[10..];
    let tag_is_for = |key: &[u8]| request_tag(key, &nonce, id, length, additional) == tag;

    // Tags, proofs, values and consent, for each ID.
    let bytes = match id {
        0x00 => {
            let place = first_match(unit, &tag_is_for)?;
            let key = unit.keys[place];
            unit.use_key(place);
            let mut block = [0u8; 16];
            block[0] = unit.power as i8 as u8;
            block[1..5].copy_from_slice(&unit.seconds.to_be_bytes());
            block[5] = 0x00;
            block[6] = unit.components as u8;
            block[7] = unit.selectable as u8;
            make_answer(&key, &nonce, id, &aes128_encrypt(&key, &block))
        }
        0x01 => {
            let place = first_match(unit, &tag_is_for)?;
            let key = unit.keys[place];
            if !unit.has_owner {
                unit.has_owner = true;
                unit.owner = place as u64;
            }
            unit.use_key(place);
            let mut bits = 0x00;
            if unit.has_identity {
                bits |= 0x01;
            }
            if unit.owner_key() == Some(key) {
                bits |= 0x02;
            }
            let mut answer_data = vec![bits];
            if let Some(identifier) = unit.current_identifier() {
                answer_data.extend_from_slice(&identifier.id);
            }
            make_answer(&key, &nonce, id, &answer_data)
        }
        0x02 => {
            let owner_key = unit.owner_key().ok_or(NOT_AUTHENTICATED)?;
            if !tag_is_for(&owner_key) {
                return Err(NOT_AUTHENTICATED);
            }
            if length == 48 {
                if !unit.has_identity || additional[32..40] != unit.key_proof(&nonce) {
                    return Err(NOT_AUTHENTICATED);
                }
            } else if unit.has_identity {
                return Err(NOT_AUTHENTICATED);
            }
            unit.use_key(unit.owner as usize);
            unit.has_waiting = true;
            unit.waiting = decrypt_two(&owner_key, additional[..32].try_into().unwrap());
            make_answer(&owner_key, &nonce, id, &[])
        }
        0x03 => {
            if !unit.has_identity {
                return Err(NOT_AUTHENTICATED);
            }
            let owner_key = unit.owner_key().ok_or(NOT_AUTHENTICATED)?;
            if !tag_is_for(&owner_key) || *additional != unit.key_proof(&nonce) {
                return Err(NOT_AUTHENTICATED);
            }
            let old = unit.clone();
            *unit = Unit::fresh(old.power, old.components, old.selectable);
            unit.seconds = old.seconds;
            unit.tenth = old.tenth;
            unit.nonce_count = old.nonce_count;
            unit.nonces = old.nonces;
            unit.live = false;
            unit.battery = old.battery;
            unit.pairing = old.pairing;
            make_answer(&owner_key, &nonce, id, &[])
        }
        0x04 => {
            if !unit.has_identity {
                return Err(NOT_AUTHENTICATED);
            }
            let recovery_key = unit.recovery_key();
            if !tag_is_for(&recovery_key) {
                return Err(NOT_AUTHENTICATED);
            }
            if unit.consent == 0 && !unit.pairing {
                return Err(NO_CONSENT);
            }
            let owner_key = unit.owner_key().ok_or(NOT_AUTHENTICATED)?;
            make_answer(&recovery_key, &nonce, id, &encrypt_two(&owner_key, &unit.identity))
        }
        0x05 => {
            if !unit.has_identity {
                return Err(NOT_AUTHENTICATED);
            }
            let ring_key = unit.ring_key();
            let skip = unit.protection == Protection::On { skip: true };
            if !skip && !tag_is_for(&ring_key) {
                return Err(NOT_AUTHENTICATED);
            }
            let whole = ringable(unit.components);
            let timeout = additional[1] as u32 * 256 + additional[2] as u32;
            let volume = additional[3] as u32;
            let mut mask = additional[0] as u32;
            if mask == 0xff {
                if whole == 0 {
                    return Err(INVALID_VALUE);
                }
                mask = whole;
            }
            if mask & !whole != 0 {
                return Err(INVALID_VALUE);
            }
            if volume > 3 {
                return Err(INVALID_VALUE);
            }
            if mask != 0 && (timeout < 1 || timeout > LONGEST_RING) {
                return Err(INVALID_VALUE);
            }
            // What sounds now. A start or stop that reaches nothing fails and leaves it.
            let (old_mask, old_left) = match unit.sound {
                Sound::Silent => (0, 0),
                Sound::Ringing { mask, left, .. } => (mask, left),
            };
            let failed = if mask == 0 { old_mask != 0 && old_mask & reach == 0 } else { mask & reach == 0 };
            if failed {
                ring_notice(&ring_key, &nonce, 1, old_mask, old_left)
            } else if mask == 0 {
                unit.make_silent();
                ring_notice(&ring_key, &nonce, 4, 0, 0)
            } else {
                let mask = mask & reach;
                let volume = if unit.selectable == 1 { volume } else { 0 };
                unit.sound = Sound::Ringing { mask, volume, left: timeout };
                unit.ring_nonce = nonce;
                ring_notice(&ring_key, &nonce, 0, mask, timeout)
            }
        }
        0x06 => {
            if !unit.has_identity {
                return Err(NOT_AUTHENTICATED);
            }
            let ring_key = unit.ring_key();
            if !tag_is_for(&ring_key) {
                return Err(NOT_AUTHENTICATED);
            }
            let (mask, left) = match unit.sound {
                Sound::Silent => (0, 0),
                Sound::Ringing { mask, left, .. } => (mask, left),
            };
            let left = (left as u16).to_be_bytes();
            make_answer(&ring_key, &nonce, id, &[mask as u8, left[0], left[1]])
        }
        0x07 => {
            if !unit.has_identity {
                return Err(NOT_AUTHENTICATED);
            }
            let protection_key = unit.protection_key();
            if !tag_is_for(&protection_key) {
                return Err(NOT_AUTHENTICATED);
            }
            let skip = match additional {
                [] | [0] => false,
                [1] => true,
                _ => return Err(INVALID_VALUE),
            };
            unit.protection = Protection::On { skip };
            make_answer(&protection_key, &nonce, id, &[])
        }
        0x08 => {
            if !unit.has_identity {
                return Err(NOT_AUTHENTICATED);
            }
            let protection_key = unit.protection_key();
            if !tag_is_for(&protection_key) || *additional != unit.key_proof(&nonce) {
                return Err(NOT_AUTHENTICATED);
            }
            unit.protection = Protection::Off;
            make_answer(&protection_key, &nonce, id, &[])
        }
        _ => return Err(INVALID_VALUE),
    };
    Ok(put(answer, &bytes))
}

/// The place of the first held key, the most recently used first, whose tag matches.
fn first_match(unit: &Unit, tag_is_for: &dyn Fn(&[u8]) -> bool) -> Result<usize, u8> {
    for (place, key) in unit.held_keys().iter().enumerate() {
        if tag_is_for(key) {
            return Ok(place);
        }
    }
    Err(NOT_AUTHENTICATED)
}

// ---------------------------------------------------------------- button

/// Gives the count of bytes written: a notice, or none on a press while silent.
pub fn button(unit: &mut Unit, answer: &mut [u8]) -> Result<usize, u8> {
    if answer.len() < ROOM {
        return Err(NO_ROOM);
    }
    if !unit.well_formed() {
        return Err(NOT_WELL_FORMED);
    }
    match unit.sound {
        Sound::Ringing { .. } => {
            let notice = ring_notice(&unit.ring_key(), &unit.ring_nonce, 3, 0, 0);
            unit.make_silent();
            Ok(put(answer, &notice))
        }
        Sound::Silent => {
            unit.consent = CONSENT;
            Ok(0)
        }
    }
}

// ---------------------------------------------------------------- elapsed time

/// What an elapsed call reports: the count of bytes written, and the tenth at which a ring ended, or 0.
#[derive(Clone, Copy, Debug, PartialEq, Eq)]
pub struct Passed {
    pub written: usize,
    pub at: u32,
}

/// One tenth: the clock, the ring, the consent. Gives the timeout notice if the ring ends.
pub fn one_tenth(unit: &mut Unit) -> Option<Vec<u8>> {
    if unit.tenth == 9 {
        unit.tenth = 0;
        unit.seconds = unit.seconds.wrapping_add(1);
    } else {
        unit.tenth += 1;
    }
    let mut notice = None;
    if let Sound::Ringing { mask, volume, left } = unit.sound {
        if left == 1 {
            notice = Some(ring_notice(&unit.ring_key(), &unit.ring_nonce, 2, 0, 0));
            unit.make_silent();
        } else {
            unit.sound = Sound::Ringing { mask, volume, left: left - 1 };
        }
    }
    if unit.consent != 0 {
        unit.consent -= 1;
    }
    notice
}

/// So many single tenths, literally. Gives the notice, if one came, with its tenth.
pub fn pass_slowly(unit: &mut Unit, tenths: u32) -> Option<(u32, Vec<u8>)> {
    let mut ended = None;
    for n in 0..tenths {
        if let Some(notice) = one_tenth(unit) {
            ended = Some((n + 1, notice));
        }
    }
    ended
}

/// The same without the loop.
pub fn pass_quickly(unit: &mut Unit, tenths: u32) -> Option<(u32, Vec<u8>)> {
    let whole_clock = 10 * (1u64 << 32);
    let clock = (unit.seconds as u64 * 10 + unit.tenth as u64 + tenths as u64) % whole_clock;
    unit.seconds = (clock / 10) as u32;
    unit.tenth = (clock % 10) as u32;
    let mut ended = None;
    if let Sound::Ringing { mask, volume, left } = unit.sound {
        if left <= tenths {
            ended = Some((left, ring_notice(&unit.ring_key(), &unit.ring_nonce, 2, 0, 0)));
            unit.make_silent();
        } else {
            unit.sound = Sound::Ringing { mask, volume, left: left - tenths };
        }
    }
    unit.consent = unit.consent.saturating_sub(tenths);
    ended
}

/// Counts up to this are passed tenth by tenth.
pub const SLOW_LIMIT: u32 = 20_000;

pub fn elapsed(unit: &mut Unit, tenths: u32, answer: &mut [u8]) -> Result<Passed, u8> {
    if answer.len() < ROOM {
        return Err(NO_ROOM);
    }
    if !unit.well_formed() {
        return Err(NOT_WELL_FORMED);
    }
    let ended = if tenths <= SLOW_LIMIT {
        pass_slowly(unit, tenths)
    } else {
        pass_quickly(unit, tenths)
    };
    Ok(match ended {
        Some((at, notice)) => Passed { written: put(answer, &notice), at },
        None => Passed { written: 0, at: 0 },
    })
}

// ---------------------------------------------------------------- sleep

/// The tenths until the next thing that time alone would do, found by trying: tenth after tenth passes, until a ring ends, consent ends, the
/// window changes or the seconds return to 0.
pub fn sleep(unit: &Unit) -> Result<u32, u8> {
    if !unit.well_formed() {
        return Err(NOT_WELL_FORMED);
    }
    let mut later = unit.clone();
    let mut tenths = 0;
    loop {
        let before = (later.seconds, later.consent);
        let ring_ended = one_tenth(&mut later).is_some();
        tenths += 1;
        let consent_ended = before.1 != 0 && later.consent == 0;
        let window_changed = window_of(before.0) != window_of(later.seconds);
        let seconds_returned = before.0 != 0 && later.seconds == 0;
        if ring_ended || consent_ended || window_changed || seconds_returned {
            return Ok(tenths);
        }
    }
}

// ---------------------------------------------------------------- disconnect

/// The connection ended: a waiting key comes into force and sound ends; without one nothing changes.
pub fn disconnect(unit: &mut Unit) -> Result<(), u8> {
    if !unit.well_formed() {
        return Err(NOT_WELL_FORMED);
    }
    if unit.has_waiting {
        unit.has_identity = true;
        unit.identity = unit.waiting;
        unit.has_waiting = false;
        unit.waiting = [0; 32];
        unit.make_silent();
    }
    Ok(())
}

// ---------------------------------------------------------------- pairing, battery, account key

pub fn pairing(unit: &mut Unit, on: bool) -> Result<(), u8> {
    if !unit.well_formed() {
        return Err(NOT_WELL_FORMED);
    }
    unit.pairing = on;
    Ok(())
}

pub fn battery(unit: &mut Unit, level: u32) -> Result<(), u8> {
    if !unit.well_formed() {
        return Err(NOT_WELL_FORMED);
    }
    if level > 3 {
        return Err(OUT_OF_RANGE);
    }
    unit.battery = level;
    Ok(())
}

pub fn account_key(unit: &mut Unit, key: &[u8]) -> Result<(), u8> {
    if !unit.well_formed() {
        return Err(NOT_WELL_FORMED);
    }
    if key.len() != 16 {
        return Err(BAD_KEY);
    }
    let key: [u8; 16] = key.try_into().unwrap();
    if unit.held_keys().contains(&key) {
        return Ok(());
    }
    // Arrival counts as use. Where there is no room, the least recently used key goes, but never the owner.
    let owner_key = unit.owner_key();
    let mut keys = unit.held_keys().to_vec();
    if keys.len() == SLOTS {
        let last = keys.iter().rposition(|held| Some(*held) != owner_key).unwrap();
        keys.remove(last);
    }
    keys.insert(0, key);
    unit.key_count = keys.len() as u64;
    unit.keys[..keys.len()].copy_from_slice(&keys);
    unit.find_owner(owner_key);
    Ok(())
}

// ---------------------------------------------------------------- frame

/// The flags byte before the XOR.
pub fn plain_flags(battery: u32, protected: bool) -> u8 {
    battery as u8 * 2 + if protected { 1 } else { 0 }
}

/// Gives the count of bytes written, 28 or 29.
pub fn frame(unit: &mut Unit, answer: &mut [u8]) -> Result<usize, u8> {
    if answer.len() < ROOM {
        return Err(NO_ROOM);
    }
    if !unit.well_formed() {
        return Err(NOT_WELL_FORMED);
    }
    let identifier = unit.current_identifier().ok_or(NO_FRAME)?;
    let protected = unit.protection != Protection::Off;
    let with_flags = unit.battery != 0 || protected;
    let mut bytes = vec![0x02, 0x01, 0x06];
    bytes.push(if with_flags { 0x19 } else { 0x18 });
    bytes.extend_from_slice(&[0x16, 0xaa, 0xfe]);
    bytes.push(if protected { 0x41 } else { 0x40 });
    bytes.extend_from_slice(&identifier.id);
    if with_flags {
        bytes.push(plain_flags(unit.battery, protected) ^ sha256(&identifier.r)[31]);
    }
    Ok(put(answer, &bytes))
}
