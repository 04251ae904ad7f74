//! The record: each line of "well formed", and refusal 2 from every call.

use super::*;
use crate::tag::{Protection, Sound};

fn full() -> Unit {
    let mut unit = provisioned(2, 1);
    unit.nonce_count = 2;
    unit.nonces[0] = [5; 8];
    unit.nonces[1] = [9; 8];
    unit.live = true;
    unit.sound = Sound::Ringing { mask: 2, volume: 3, left: 6_000 };
    unit.ring_nonce = [4; 8];
    unit.protection = Protection::On { skip: true };
    unit.consent = 600;
    unit.battery = 3;
    assert!(unit.well_formed());
    unit
}

fn broken(change: impl Fn(&mut Unit), of: &Unit) {
    let mut unit = of.clone();
    change(&mut unit);
    assert!(!unit.well_formed(), "{unit:?}");
    let before = unit.clone();
    let mut answer = [0xa5; 42];
    assert_eq!(tag::read(&mut unit, &[], &mut answer), Err(2));
    assert_eq!(tag::write(&mut unit, &[], 0xff, &mut answer), Err(2));
    assert_eq!(tag::write(&mut unit, &[0x01, 8, 0, 0, 0, 0, 0, 0, 0, 0], 0, &mut answer), Err(2));
    assert_eq!(tag::button(&mut unit, &mut answer), Err(2));
    assert_eq!(tag::elapsed(&mut unit, 0, &mut answer), Err(2));
    assert_eq!(tag::elapsed(&mut unit, u32::MAX, &mut answer), Err(2));
    assert_eq!(tag::frame(&mut unit, &mut answer), Err(2));
    assert_eq!(tag::pairing(&mut unit, true), Err(2));
    assert_eq!(tag::disconnect(&mut unit), Err(2));
    assert_eq!(tag::sleep(&unit), Err(2));
    assert_eq!(tag::battery(&mut unit, 9), Err(2));
    assert_eq!(tag::account_key(&mut unit, &[]), Err(2));
    assert_eq!(answer, [0xa5; 42]);
    assert_eq!(unit, before);
    // Room comes before the record.
    assert_eq!(tag::read(&mut unit, &[], &mut answer[..41]), Err(6));
    assert_eq!(tag::write(&mut unit, &[], 0xff, &mut []), Err(6));
    assert_eq!(tag::button(&mut unit, &mut answer[..41]), Err(6));
    assert_eq!(tag::elapsed(&mut unit, 1, &mut answer[..41]), Err(6));
    assert_eq!(tag::frame(&mut unit, &mut answer[..41]), Err(6));
    assert_eq!(unit, before);
}

fn right(change: impl Fn(&mut Unit), of: &Unit) {
    let mut unit = of.clone();
    change(&mut unit);
    assert!(unit.well_formed(), "{unit:?}");
}

#[test]
fn settings_and_clock() {
    let fresh = tag::new_unit(0, 0, 0).unwrap();
    for unit in [&fresh, &full()] {
        broken(|u| u.power = -101, unit);
        broken(|u| u.power = 21, unit);
        broken(|u| u.power = i32::MIN, unit);
        broken(|u| u.components = 4, unit);
        broken(|u| u.components = 256, unit);
        broken(|u| u.selectable = 2, unit);
        broken(|u| u.tenth = 10, unit);
        broken(|u| u.tenth = u32::MAX, unit);
        right(|u| u.power = -100, unit);
        right(|u| u.power = 20, unit);
        right(|u| u.tenth = 9, unit);
        right(|u| u.seconds = u32::MAX, unit);
    }
}

#[test]
fn keys_and_owner() {
    let unit = full();
    broken(|u| u.key_count = 11, &unit);
    broken(|u| u.key_count = 200, &unit);
    broken(|u| u.key_count = u64::MAX, &unit);
    broken(|u| u.keys[1] = u.keys[0], &unit);
    broken(|u| u.keys[9][15] = 1, &unit);
    broken(|u| u.key_count = 1, &unit);
    broken(|u| u.key_count = 4, &unit);
    broken(|u| u.key_count = 0, &unit);
    right(|u| u.key_count = 3, &unit);
    broken(|u| u.owner = 2, &unit);
    broken(|u| u.owner = 10, &unit);
    broken(|u| u.owner = 1 << 63, &unit);
    broken(|u| u.has_owner = false, &unit);
    right(|u| u.owner = 0, &unit);
    let fresh = tag::new_unit(0, 0, 0).unwrap();
    broken(|u| u.has_owner = true, &fresh);
    broken(|u| u.owner = 1, &fresh);
    broken(|u| u.owner = 1 << 63, &fresh);
    broken(|u| u.keys[0][0] = 1, &fresh);
    right(|u| u.key_count = 1, &fresh);
    right(|u| { u.key_count = 1; u.has_owner = true }, &fresh);
    right(|u| { u.key_count = 1; u.has_owner = true; u.has_identity = true }, &fresh);
    broken(|u| u.has_identity = true, &fresh);
    broken(|u| u.identity[31] = 1, &fresh);
    broken(|u| u.key_count = 2, &fresh);
    broken(|u| u.has_waiting = true, &fresh);
    broken(|u| u.waiting[31] = 1, &fresh);
    right(|u| { u.key_count = 1; u.has_owner = true; u.has_waiting = true }, &fresh);
    right(|u| { u.has_waiting = true; u.waiting = u.identity }, &unit);
}

#[test]
fn nonces_and_sound() {
    let fresh = tag::new_unit(0, 3, 0).unwrap();
    broken(|u| u.nonces[0][7] = 1, &fresh);
    broken(|u| u.nonces[15][0] = 1, &fresh);
    broken(|u| u.nonce_count = 17, &fresh);
    broken(|u| u.nonce_count = 2, &fresh);
    broken(|u| u.live = true, &fresh);
    right(|u| u.nonce_count = 1, &fresh);
    right(|u| { u.nonce_count = 1; u.live = true }, &fresh);
    broken(|u| u.ring_nonce[0] = 1, &fresh);
    broken(|u| u.sound = Sound::Ringing { mask: 1, volume: 0, left: 1 }, &fresh);
    let unit = full();
    broken(|u| u.sound = Sound::Silent, &unit);
    right(|u| { u.sound = Sound::Silent; u.ring_nonce = [0; 8] }, &unit);
    for mask in [0, 4, 5, 0xff, 0x100, 0x101, u32::MAX] {
        broken(|u| u.sound = Sound::Ringing { mask, volume: 0, left: 1 }, &unit);
    }
    for volume in [4, 256, u32::MAX] {
        broken(|u| u.sound = Sound::Ringing { mask: 1, volume, left: 1 }, &unit);
    }
    for left in [0, 6_001, 65_536, u32::MAX] {
        broken(|u| u.sound = Sound::Ringing { mask: 1, volume: 0, left }, &unit);
    }
    broken(|u| u.selectable = 0, &unit);
    right(|u| { u.selectable = 0; u.sound = Sound::Ringing { mask: 3, volume: 0, left: 1 } }, &unit);
    // Not asked: a last nonce while ringing, nor any tie between the two nonces.
    right(|u| { u.nonce_count = 0; u.nonces = [[0; 8]; 16]; u.live = false }, &unit);
    right(|u| u.nonce_count = 3, &unit);
    broken(|u| u.nonce_count = 1, &unit);
    broken(|u| u.nonces[1] = u.nonces[0], &unit);
    right(|u| u.ring_nonce = [0; 8], &unit);
    right(|u| u.ring_nonce = u.nonces[0], &unit);
}

#[test]
fn the_rest() {
    let fresh = tag::new_unit(0, 3, 0).unwrap();
    broken(|u| u.protection = Protection::On { skip: false }, &fresh);
    broken(|u| u.protection = Protection::On { skip: true }, &fresh);
    for unit in [&fresh, &full()] {
        broken(|u| u.consent = 601, unit);
        broken(|u| u.consent = u32::MAX, unit);
        broken(|u| u.battery = 4, unit);
        broken(|u| u.battery = 256, unit);
        right(|u| u.consent = 600, unit);
        right(|u| u.pairing = true, unit);
    }
}

/// The record's size, and that its bytes mean the unit that they were made from.
#[test]
fn bytes_and_back() {
    use crate::record::{decode, encode, place, SIZE};
    for unit in [tag::new_unit(0, 0, 0).unwrap(), tag::new_unit(-100, 3, 1).unwrap(), full()] {
        assert_eq!(encode(&unit).len(), SIZE);
        assert_eq!(decode(&encode(&unit)), Some(unit));
    }
    assert_eq!(place("nonces-bytes"), 14);
    assert_eq!(place("battery") + 1, SIZE);
}

/// The table's records are broken or right as they are named, and each has a name of its own.
#[test]
fn samples() {
    use crate::record::decode;
    let samples = crate::damage::samples();
    let names: std::collections::BTreeSet<_> = samples.iter().map(|s| &s.name).collect();
    assert_eq!(names.len(), samples.len());
    for sample in samples {
        assert!(sample.base.well_formed());
        assert_eq!(decode(&sample.bytes).is_none_or(|unit| !unit.well_formed()), sample.broken, "{}", sample.name);
    }
}
