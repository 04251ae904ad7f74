//! The paper's examples at the edges.

use super::*;
use crate::primitives::{aes128_decrypt, sha256};
use crate::tag::{account_key, battery, button, elapsed, frame, new_unit, plain_flags, read, ringable, window_of, Protection, Sound};

#[test]
fn power_bytes() {
    for (power, byte) in [(-100, 0x9c), (-1, 0xff), (0, 0x00), (20, 0x14)] {
        let mut unit = new_unit(power, 2, 1).unwrap();
        unit.seconds = 0x01020304;
        account_key(&mut unit, &OWNER_KEY).unwrap();
        let answer = exchange(&mut unit, [7; 8], &OWNER_KEY, 0x00, &[]).unwrap();
        assert_eq!(answer.len(), 26);
        assert_eq!(answer[..2], [0x00, 24]);
        let block = aes128_decrypt(&OWNER_KEY, answer[10..].try_into().unwrap());
        assert_eq!(block, [byte, 1, 2, 3, 4, 0, 2, 1, 0, 0, 0, 0, 0, 0, 0, 0]);
    }
    assert_eq!(new_unit(-101, 0, 0), Err(1));
    assert_eq!(new_unit(21, 0, 0), Err(1));
    assert_eq!(new_unit(i32::MIN, 0, 0), Err(1));
    assert_eq!(new_unit(156, 0, 0), Err(1));
    assert_eq!(new_unit(0, 4, 0), Err(1));
    assert_eq!(new_unit(0, 256, 0), Err(1));
    assert_eq!(new_unit(0, 3, 2), Err(1));
    assert_eq!(new_unit(0, 3, 256), Err(1));
}

fn ring(unit: &mut Unit, mask: u8, timeout: u16, volume: u8) -> Result<Vec<u8>, u8> {
    let key = sub_key(&unit.identity, 2);
    let nonce = (u64::from_be_bytes(unit.nonces[0]) + 1).to_be_bytes();
    let time = timeout.to_be_bytes();
    exchange(unit, nonce, &key, 0x05, &[mask, time[0], time[1], volume])
}

#[test]
fn timeouts() {
    let mut unit = provisioned(3, 1);
    let answer = ring(&mut unit, 0x01, 6_000, 3).unwrap();
    assert_eq!(answer.len(), 14);
    assert_eq!(answer[..2], [0x05, 12]);
    assert_eq!(answer[10..], [0, 0x01, 0x17, 0x70]);
    assert_eq!(unit.sound, Sound::Ringing { mask: 1, volume: 3, left: 6_000 });
    assert_eq!(ring(&mut unit, 0x01, 6_001, 0), Err(0x81));
    assert_eq!(ring(&mut unit, 0x01, 0, 0), Err(0x81));
    assert_eq!(ring(&mut unit, 0x01, 65_535, 0), Err(0x81));
    assert_eq!(unit.sound, Sound::Ringing { mask: 1, volume: 3, left: 6_000 });
    assert_eq!(ring(&mut unit, 0x00, 0, 0).unwrap()[10..], [4, 0, 0, 0]);
    assert_eq!(unit.sound, Sound::Silent);
    assert_eq!(ring(&mut unit, 0x00, 65_535, 3).unwrap()[10..], [4, 0, 0, 0]);
    assert_eq!(ring(&mut unit, 0x00, 0, 4), Err(0x81));
}

#[test]
fn masks() {
    let mut unit = provisioned(3, 1);
    assert_eq!(ring(&mut unit, 0xff, 10, 0).unwrap()[10..], [0, 0x07, 0, 10]);
    assert_eq!(ring(&mut unit, 0x08, 10, 0), Err(0x81));
    let mut unit = provisioned(2, 1);
    assert_eq!(ring(&mut unit, 0x04, 10, 0), Err(0x81));
    assert_eq!(ring(&mut unit, 0x02, 10, 0).unwrap()[10..], [0, 0x02, 0, 10]);
    assert_eq!(ring(&mut unit, 0xff, 10, 0).unwrap()[10..], [0, 0x03, 0, 10]);
    let mut unit = provisioned(1, 1);
    assert_eq!(ring(&mut unit, 0x02, 10, 0), Err(0x81));
    assert_eq!(ring(&mut unit, 0xff, 10, 0).unwrap()[10..], [0, 0x01, 0, 10]);
    let mut unit = provisioned(0, 1);
    assert_eq!(ring(&mut unit, 0xff, 10, 0), Err(0x81));
    assert_eq!(ring(&mut unit, 0x01, 10, 0), Err(0x81));
    assert_eq!(ring(&mut unit, 0x00, 10, 0).unwrap()[10..], [4, 0, 0, 0]);
    for components in 0..4 {
        assert_eq!(ringable(components).count_ones(), components);
    }
}

#[test]
fn volume_where_not_selectable() {
    let mut unit = provisioned(1, 0);
    ring(&mut unit, 0x01, 10, 3).unwrap();
    assert_eq!(unit.sound, Sound::Ringing { mask: 1, volume: 0, left: 10 });
    assert_eq!(ring(&mut unit, 0x01, 10, 4), Err(0x81));
}

#[test]
fn ring_left_five() {
    for (tenths, at, left) in [(4, 0, 1), (5, 5, 0), (6, 5, 0)] {
        let mut unit = provisioned(1, 0);
        ring(&mut unit, 0x01, 5, 0).unwrap();
        let mut answer = [0xa5; 42];
        let passed = elapsed(&mut unit, tenths, &mut answer).unwrap();
        assert_eq!(passed.at, at);
        if left > 0 {
            assert_eq!(passed.written, 0);
            assert_eq!(answer, [0xa5; 42]);
            assert_eq!(unit.sound, Sound::Ringing { mask: 1, volume: 0, left });
        } else {
            assert_eq!(passed.written, 14);
            assert_eq!(answer[10..14], [2, 0, 0, 0]);
            assert_eq!(answer[14..], [0xa5; 28]);
            assert_eq!(unit.sound, Sound::Silent);
        }
    }
}

#[test]
fn clock_returns_to_zero() {
    let mut unit = new_unit(0, 0, 0).unwrap();
    unit.seconds = 4_294_967_295;
    unit.tenth = 9;
    elapsed(&mut unit, 1, &mut [0; 42]).unwrap();
    assert_eq!((unit.seconds, unit.tenth), (0, 0));
}

#[test]
fn windows() {
    assert_eq!(window_of(1_023), 0);
    assert_eq!(window_of(1_024), 1_024);
    assert_eq!(window_of(4_294_967_295), 4_294_966_272);
}

#[test]
fn flags() {
    assert_eq!(plain_flags(1, false), 0x02);
    assert_eq!(plain_flags(3, true), 0x07);
    assert_eq!(plain_flags(0, true), 0x01);
    for (level, protection, kind, byte) in [
        (0, Protection::Off, 0x40, None),
        (1, Protection::Off, 0x40, Some(0x02)),
        (3, Protection::On { skip: false }, 0x41, Some(0x07)),
        (0, Protection::On { skip: true }, 0x41, Some(0x01)),
    ] {
        let mut unit = provisioned(0, 0);
        unit.protection = protection;
        battery(&mut unit, level).unwrap();
        let identifier = unit.current_identifier().unwrap();
        let mut answer = [0xa5; 42];
        let count = frame(&mut unit, &mut answer).unwrap();
        let mut expected = vec![2, 1, 6, if byte.is_some() { 0x19 } else { 0x18 }, 0x16, 0xaa, 0xfe, kind];
        expected.extend_from_slice(&identifier.id);
        if let Some(byte) = byte {
            expected.push(byte ^ sha256(&identifier.r)[31]);
        }
        assert_eq!(answer[..count].to_vec(), expected);
        assert!(answer[count..].iter().all(|b| *b == 0xa5));
    }
}

#[test]
fn answer_room() {
    let mut unit = provisioned(1, 0);
    read(&mut unit, &[1; 8], &mut [0; 42]).unwrap();
    let data = request(&OWNER_KEY, &[1; 8], 0x01, &[]);
    let before = unit.clone();
    let mut answer = [0xa5; 41];
    assert_eq!(write(&mut unit, &data).is_ok(), true);
    unit = before.clone();
    assert_eq!(tag::write(&mut unit, &data, 1, &mut answer), Err(6));
    assert_eq!(read(&mut unit, &[2; 8], &mut answer), Err(6));
    assert_eq!(button(&mut unit, &mut answer), Err(6));
    assert_eq!(elapsed(&mut unit, 1, &mut answer), Err(6));
    assert_eq!(frame(&mut unit, &mut answer), Err(6));
    assert_eq!(answer, [0xa5; 41]);
    assert_eq!(unit, before);
    assert!(unit.live);
    assert_eq!(tag::write(&mut unit, &data, 1, &mut [0; 42]), Ok(31));
    // More room serves too, and the rest is kept.
    let mut unit = before;
    let mut long = [0xa5; 100];
    assert_eq!(tag::write(&mut unit, &data, 1, &mut long), Ok(31));
    assert_eq!(long[31..], [0xa5; 69]);
}
