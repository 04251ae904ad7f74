//! Refusals, their order, and what each call leaves behind.

use super::*;
use crate::primitives::{aes128_decrypt, aes128_encrypt};
use crate::tag::{Protection, Sound};

#[test]
fn nonces_lent_to_read() {
    let mut unit = tag::new_unit(0, 0, 0).unwrap();
    let mut answer = [0xa5; 42];
    assert_eq!(tag::read(&mut unit, &[0; 8], &mut answer), Ok(9));
    assert_eq!(answer[..10], [1, 0, 0, 0, 0, 0, 0, 0, 0, 0xa5]);
    assert_eq!(tag::read(&mut unit, &[0; 8], &mut answer), Err(3));
    assert!(unit.live);
    for wrong in [0, 7, 9] {
        assert_eq!(tag::read(&mut unit, &vec![1; wrong], &mut answer), Err(3));
    }
    assert!(unit.live);
    assert_eq!(write(&mut unit, &[]), Err(0x81));
    assert_eq!(tag::read(&mut unit, &[0; 8], &mut answer), Err(3));
    assert!(!unit.live);
    assert_eq!(tag::read(&mut unit, &[1; 8], &mut answer), Ok(9));
    assert_eq!(tag::read(&mut unit, &[0; 8], &mut answer), Err(3));
    assert!(unit.live && unit.nonces[0] == [1; 8]);
}

#[test]
fn sixteen_nonces() {
    let mut unit = tag::new_unit(0, 0, 0).unwrap();
    let mut lend = |n: u8| tag::read(&mut unit, &[n; 8], &mut [0; 42]);
    for n in 1..=16 {
        assert_eq!(lend(n), Ok(9));
        for old in 1..=n {
            assert_eq!(lend(old), Err(3));
        }
    }
    // The seventeenth back is accepted, and the refused reads entered nothing.
    assert_eq!(lend(17), Ok(9));
    for old in 2..=17 {
        assert_eq!(lend(old), Err(3));
    }
    assert_eq!(lend(1), Ok(9));
    assert_eq!(lend(3), Err(3));
    assert_eq!(lend(2), Ok(9));
    assert_eq!(unit.nonce_count, 16);
    assert_eq!(unit.nonces[..3], [[2; 8], [1; 8], [17; 8]]);
    assert_eq!(unit.nonces[15], [4; 8]);
    // Sources of every period: up to 16 values come once each, from 17 on always.
    for period in 1..=20u8 {
        let mut unit = tag::new_unit(0, 0, 0).unwrap();
        for step in 0..100 {
            let result = tag::read(&mut unit, &[step % period; 8], &mut [0; 42]);
            assert_eq!(result.is_ok(), period > 16 || step < period);
        }
    }
}

#[test]
fn shapes() {
    let lengths = |id: u8| -> &[u8] {
        match id {
            0x00 | 0x01 | 0x04 | 0x06 => &[8],
            0x02 => &[40, 48],
            0x03 | 0x08 => &[16],
            0x05 => &[12],
            0x07 => &[8, 9],
            _ => &[],
        }
    };
    for id in 0..=255u8 {
        for length in 0..=255u8 {
            for extra in [-1i32, 0, 1] {
                let mut unit = provisioned(1, 1);
                tag::read(&mut unit, &[1; 8], &mut [0; 42]).unwrap();
                let mut data = vec![id, length];
                data.resize((length as i32 + 2 + extra) as usize, 0);
                if !data.is_empty() {
                    data[0] = id;
                }
                let expected = if lengths(id).contains(&length) && extra == 0 { 0x80 } else { 0x81 };
                assert_eq!(write(&mut unit, &data), Err(expected), "{id} {length} {extra}");
            }
        }
    }
    // The shape is judged before the live nonce.
    let mut unit = provisioned(1, 1);
    assert_eq!(write(&mut unit, &[0x09]), Err(0x81));
    assert_eq!(write(&mut unit, &[0x01, 8, 0, 0, 0, 0, 0, 0, 0, 0]), Err(0x80));
    assert_eq!(write(&mut unit, &vec![0; 100_000]), Err(0x81));
}

#[test]
fn without_an_identity_key() {
    let mut unit = tag::new_unit(0, 3, 1).unwrap();
    tag::account_key(&mut unit, &OWNER_KEY).unwrap();
    exchange(&mut unit, [1; 8], &OWNER_KEY, 0x01, &[]).unwrap();
    let zero = [0u8; 32];
    let cases: [(u8, Vec<u8>, Vec<u8>); 6] = [
        (0x03, OWNER_KEY.to_vec(), proof(&zero, &[9; 8])),
        (0x04, sub_key(&zero, 1).to_vec(), vec![]),
        (0x05, sub_key(&zero, 2).to_vec(), vec![0xff, 0, 0, 9]),
        (0x06, sub_key(&zero, 2).to_vec(), vec![]),
        (0x07, sub_key(&zero, 3).to_vec(), vec![7]),
        (0x08, sub_key(&zero, 3).to_vec(), proof(&zero, &[9; 8])),
    ];
    for (id, key, data) in cases {
        let mut copy = unit.clone();
        assert_eq!(exchange(&mut copy, [9; 8], &key, id, &data), Err(0x80), "{id}");
    }
}

#[test]
fn account_keys() {
    let mut unit = tag::new_unit(0, 0, 0).unwrap();
    for wrong in [0, 15, 17, 125] {
        assert_eq!(tag::account_key(&mut unit, &vec![1; wrong]), Err(4));
    }
    for n in 0..10u8 {
        assert_eq!(tag::account_key(&mut unit, &[n; 16]), Ok(()));
        assert_eq!(unit.key_count, n as u64 + 1);
        assert_eq!(unit.keys[0], [n; 16]);
    }
    let before = unit.clone();
    for n in 0..10u8 {
        assert_eq!(tag::account_key(&mut unit, &[n; 16]), Ok(()));
    }
    assert_eq!(unit, before);
    assert_eq!(tag::account_key(&mut unit, &[5; 15]), Err(4));
    // The first comes back as a new one, and the second goes.
    assert_eq!(tag::account_key(&mut unit, &[10; 16]), Ok(()));
    assert_eq!(unit.keys, core::array::from_fn(|n| [10 - n as u8; 16]));
    assert_eq!(tag::account_key(&mut unit, &[0; 16]), Ok(()));
    assert_eq!(unit.keys[..2], [[0; 16], [10; 16]]);
    assert_eq!(unit.keys[9], [2; 16]);
}

/// The key dropped is the one whose last use or arrival is the longest ago, but never the owner.
#[test]
fn least_recently_used() {
    let mut dice = Dice(6);
    for round in 0..60 {
        // Half of the runs go on without an owner.
        let ids = [[0, 1, 2, 4, 9], [0, 0, 2, 4, 9]][round % 2];
        let mut unit = tag::new_unit(0, 1, 0).unwrap();
        let mut last_use: Vec<([u8; 16], u32)> = vec![];
        let mut owner = None;
        for step in 0..400u32 {
            let key = [dice.below(14) as u8; 16];
            let held = last_use.iter().position(|(other, _)| *other == key);
            let nonce = (step as u64 + 1).to_be_bytes();
            let id = ids[dice.below(5) as usize];
            if id == 9 {
                tag::account_key(&mut unit, &key).unwrap();
                if held.is_none() {
                    if last_use.len() == 10 {
                        let oldest = last_use.iter().filter(|(other, _)| Some(*other) != owner).min_by_key(|(_, at)| *at).unwrap().0;
                        last_use.retain(|(other, _)| *other != oldest);
                    }
                    last_use.push((key, step));
                }
            } else {
                let data = if id == 2 { vec![3; 32] } else { vec![] };
                let served = exchange(&mut unit, nonce, &key, id, &data).is_ok();
                let expected = match id {
                    0 | 1 => held.is_some(),
                    2 => owner == Some(key),
                    _ => false,
                };
                assert_eq!(served, expected);
                if served {
                    last_use[held.unwrap()].1 = step;
                    if id == 1 && owner.is_none() {
                        owner = Some(key);
                    }
                }
            }
            last_use.sort_by_key(|(_, at)| core::cmp::Reverse(*at));
            let order: Vec<[u8; 16]> = last_use.iter().map(|(key, _)| *key).collect();
            assert_eq!(unit.keys[..unit.key_count as usize], order[..]);
            assert_eq!(unit.has_owner.then(|| unit.keys[unit.owner as usize]), owner);
        }
    }
}

#[test]
fn only_0x01_makes_an_owner() {
    let mut unit = tag::new_unit(0, 0, 0).unwrap();
    tag::account_key(&mut unit, &OTHER_KEY).unwrap();
    tag::account_key(&mut unit, &OWNER_KEY).unwrap();
    assert_eq!(exchange(&mut unit, [1; 8], &OWNER_KEY, 0x02, &[0; 32]), Err(0x80));
    assert!(exchange(&mut unit, [2; 8], &OWNER_KEY, 0x00, &[]).is_ok());
    assert!(!unit.has_owner);
    let answer = exchange(&mut unit, [3; 8], &OWNER_KEY, 0x01, &[]).unwrap();
    assert_eq!(answer, tag::make_answer(&OWNER_KEY, &[3; 8], 0x01, &[0x02]));
    assert_eq!(unit.keys[unit.owner as usize], OWNER_KEY);
    let answer = exchange(&mut unit, [4; 8], &OTHER_KEY, 0x01, &[]).unwrap();
    assert_eq!(answer[10..], [0x00]);
    assert_eq!((unit.owner, unit.keys[1]), (1, OWNER_KEY));
    assert_eq!(exchange(&mut unit, [5; 8], &OTHER_KEY, 0x02, &[0; 32]), Err(0x80));
    assert!(exchange(&mut unit, [6; 8], &OWNER_KEY, 0x02, &[0; 32]).is_ok());
    assert_eq!(exchange(&mut unit, [9; 8], &OWNER_KEY, 0x01, &[]).unwrap()[10..], [0x02]);
    tag::disconnect(&mut unit).unwrap();
    assert_eq!(unit.identity[..16], aes128_decrypt(&OWNER_KEY, &[0; 16]));
    assert_eq!(unit.identity[16..], aes128_decrypt(&OWNER_KEY, &[0; 16]));
    assert_eq!(exchange(&mut unit, [7; 8], &OTHER_KEY, 0x01, &[]).unwrap()[10], 0x01);
    assert_eq!(exchange(&mut unit, [8; 8], &OWNER_KEY, 0x01, &[]).unwrap()[10], 0x03);
}

#[test]
fn new_identity_key_and_what_stays() {
    let mut unit = provisioned(3, 1);
    exchange(&mut unit, [1; 8], &sub_key(&IDENTITY, 3), 0x07, &[1]).unwrap();
    exchange(&mut unit, [2; 8], &sub_key(&IDENTITY, 2), 0x05, &[0xff, 0, 9, 1]).unwrap();
    tag::pairing(&mut unit, true).unwrap();
    tag::battery(&mut unit, 2).unwrap();
    unit.consent = 77;
    let mut data = Vec::new();
    data.extend_from_slice(&aes128_encrypt(&OWNER_KEY, IDENTITY[..16].try_into().unwrap()));
    data.extend_from_slice(&aes128_encrypt(&OWNER_KEY, IDENTITY[16..].try_into().unwrap()));
    data.extend_from_slice(&proof(&IDENTITY, &[3; 8]));
    let mut expected = unit.clone();
    let answer = exchange(&mut unit, [3; 8], &OWNER_KEY, 0x02, &data).unwrap();
    assert_eq!(answer, tag::make_answer(&OWNER_KEY, &[3; 8], 0x02, &[]));
    // The write only sets the waiting key, and the owner's key was used.
    expected.keys.swap(0, 1);
    expected.owner = 0;
    expected.nonce_count = 3;
    expected.nonces = unit.nonces;
    assert_eq!(unit.nonces[..4], [[3; 8], [2; 8], [1; 8], [0; 8]]);
    expected.has_waiting = true;
    expected.waiting = IDENTITY;
    assert_eq!(unit, expected);
    // The same key again: at the disconnect sound ends all the same.
    unit.live = true;
    tag::disconnect(&mut unit).unwrap();
    expected.live = true;
    expected.has_waiting = false;
    expected.waiting = [0; 32];
    expected.sound = Sound::Silent;
    expected.ring_nonce = [0; 8];
    assert_eq!(unit, expected);
    // Any other disconnect changes nothing.
    tag::disconnect(&mut unit).unwrap();
    assert_eq!(unit, expected);
}

#[test]
fn a_key_that_waits() {
    let mut unit = provisioned(3, 1);
    let offer = |unit: &mut Unit, n: u8, data: u8, of: &[u8; 32]| {
        let mut additional = vec![data; 32];
        additional.extend_from_slice(&proof(of, &[n; 8]));
        exchange(unit, [n; 8], &OWNER_KEY, 0x02, &additional)
    };
    offer(&mut unit, 1, 0x33, &IDENTITY).unwrap();
    let first = unit.waiting;
    // A second 0x02 is judged against the old key; only an accepted one replaces what waits.
    assert_eq!(offer(&mut unit, 2, 0x44, &first), Err(0x80));
    assert_eq!(unit.waiting, first);
    offer(&mut unit, 3, 0x44, &IDENTITY).unwrap();
    let second = unit.waiting;
    assert_ne!(second, first);
    // Tags and frames are those of the old key, 0x03 drops both.
    assert_eq!(exchange(&mut unit, [4; 8], &sub_key(&second, 2), 0x06, &[]), Err(0x80));
    assert!(exchange(&mut unit, [5; 8], &sub_key(&IDENTITY, 2), 0x06, &[]).is_ok());
    let mut cleared = unit.clone();
    assert_eq!(exchange(&mut cleared, [6; 8], &OWNER_KEY, 0x03, &proof(&second, &[6; 8])), Err(0x80));
    assert!(exchange(&mut cleared, [7; 8], &OWNER_KEY, 0x03, &proof(&IDENTITY, &[7; 8])).is_ok());
    assert!(!cleared.has_identity && !cleared.has_waiting && cleared.waiting == [0; 32]);
    tag::disconnect(&mut unit).unwrap();
    assert_eq!(unit.identity, second);
    assert!(exchange(&mut unit, [8; 8], &sub_key(&second, 2), 0x06, &[]).is_ok());
    // With a waiting key alone there is none in force.
    let mut unit = provisioned(3, 1);
    unit.has_identity = false;
    unit.identity = [0; 32];
    exchange(&mut unit, [1; 8], &OWNER_KEY, 0x02, &[0x55; 32]).unwrap();
    let waiting = unit.waiting;
    assert_eq!(offer(&mut unit, 2, 0x66, &waiting), Err(0x80));
    assert_eq!(tag::frame(&mut unit, &mut [0; 42]), Err(5));
    assert_eq!(exchange(&mut unit, [3; 8], &OWNER_KEY, 0x03, &proof(&waiting, &[3; 8])), Err(0x80));
    assert_eq!(unit.waiting, waiting);
    exchange(&mut unit, [4; 8], &OWNER_KEY, 0x02, &[0x77; 32]).unwrap();
    assert_ne!(unit.waiting, waiting);
}

#[test]
fn clearing_and_what_remains() {
    let mut unit = provisioned(3, 1);
    unit.has_waiting = true;
    unit.waiting = [7; 32];
    unit.seconds = 5_000;
    unit.tenth = 7;
    unit.consent = 77;
    exchange(&mut unit, [1; 8], &sub_key(&IDENTITY, 3), 0x07, &[1]).unwrap();
    exchange(&mut unit, [2; 8], &sub_key(&IDENTITY, 2), 0x05, &[0xff, 0, 9, 1]).unwrap();
    tag::pairing(&mut unit, true).unwrap();
    tag::battery(&mut unit, 2).unwrap();
    assert_eq!(exchange(&mut unit, [3; 8], &OWNER_KEY, 0x03, &[0; 8]), Err(0x80));
    assert_eq!(exchange(&mut unit, [4; 8], &OTHER_KEY, 0x03, &proof(&IDENTITY, &[4; 8])), Err(0x80));
    let answer = exchange(&mut unit, [5; 8], &OWNER_KEY, 0x03, &proof(&IDENTITY, &[5; 8])).unwrap();
    assert_eq!(answer, tag::make_answer(&OWNER_KEY, &[5; 8], 0x03, &[]));
    let mut expected = tag::new_unit(-20, 3, 1).unwrap();
    expected.seconds = 5_000;
    expected.tenth = 7;
    expected.nonce_count = 5;
    for n in 0..5 {
        expected.nonces[n] = [5 - n as u8; 8];
    }
    expected.battery = 2;
    expected.pairing = true;
    assert_eq!(unit, expected);
    for n in 1..=5 {
        assert_eq!(tag::read(&mut unit, &[n; 8], &mut [0; 42]), Err(3));
    }
}

#[test]
fn protection_on_and_off() {
    let mut unit = provisioned(1, 1);
    let key = sub_key(&IDENTITY, 3);
    assert_eq!(exchange(&mut unit, [1; 8], &key, 0x07, &[2]), Err(0x81));
    assert_eq!(exchange(&mut unit, [2; 8], b"wrong", 0x07, &[2]), Err(0x80));
    assert_eq!(unit.protection, Protection::Off);
    for (n, data, skip) in [(3, &[1u8][..], true), (4, &[], false), (5, &[1], true), (6, &[0], false)] {
        let answer = exchange(&mut unit, [n; 8], &key, 0x07, data).unwrap();
        assert_eq!(answer, tag::make_answer(&key, &[n; 8], 0x07, &[]));
        assert_eq!(unit.protection, Protection::On { skip });
    }
    assert_eq!(exchange(&mut unit, [7; 8], &key, 0x08, &proof(&IDENTITY, &[6; 8])), Err(0x80));
    for n in [8, 9] {
        let answer = exchange(&mut unit, [n; 8], &key, 0x08, &proof(&IDENTITY, &[n; 8])).unwrap();
        assert_eq!(answer, tag::make_answer(&key, &[n; 8], 0x08, &[]));
        assert_eq!(unit.protection, Protection::Off);
    }
}

#[test]
fn frames_and_identifiers() {
    let mut unit = tag::new_unit(0, 0, 0).unwrap();
    assert_eq!(tag::frame(&mut unit, &mut [0; 42]), Err(5));
    assert_eq!(tag::battery(&mut unit, 4), Err(1));
    assert_eq!(tag::battery(&mut unit, 256), Err(1));
    let mut unit = provisioned(0, 0);
    unit.seconds = 1_023;
    unit.tenth = 8;
    let (mut first, mut second, mut third) = ([0; 42], [0; 42], [0; 42]);
    let status = exchange(&mut unit, [1; 8], &OTHER_KEY, 0x01, &[]).unwrap();
    assert_eq!(status[1], 29);
    assert_eq!(status[10], 0x01);
    assert_eq!(tag::frame(&mut unit, &mut first), Ok(28));
    assert_eq!(status[11..], first[8..28]);
    tag::elapsed(&mut unit, 1, &mut [0; 42]).unwrap();
    assert_eq!(tag::frame(&mut unit, &mut second), Ok(28));
    assert_eq!(second, first);
    tag::elapsed(&mut unit, 1, &mut [0; 42]).unwrap();
    assert_eq!(tag::frame(&mut unit, &mut third), Ok(28));
    assert_ne!(third, first);
    assert_eq!(exchange(&mut unit, [2; 8], &OWNER_KEY, 0x01, &[]).unwrap()[10..], [&[0x03], &third[8..28]].concat());
    // 2^32 seconds later the first one is back.
    unit.seconds = 4_294_967_295;
    unit.tenth = 9;
    tag::elapsed(&mut unit, 1, &mut [0; 42]).unwrap();
    assert_eq!(tag::frame(&mut unit, &mut second), Ok(28));
    assert_eq!(second, first);
}

#[test]
fn first_of_the_held_keys() {
    let mut unit = tag::new_unit(0, 0, 0).unwrap();
    for n in 0..10u8 {
        tag::account_key(&mut unit, &[n; 16]).unwrap();
    }
    for n in (0..10u8).rev() {
        let answer = exchange(&mut unit, [n; 8], &[n; 16], 0x00, &[]).unwrap();
        let block = aes128_decrypt(&[n; 16], answer[10..].try_into().unwrap());
        assert_eq!(block, [0; 16]);
        assert_eq!(unit.keys[0], [n; 16]);
    }
    assert_eq!(exchange(&mut unit, [11; 8], &[11; 16], 0x00, &[]), Err(0x80));
}
