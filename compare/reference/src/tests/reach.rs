//! Parts that are out of reach.

use super::*;
use crate::tag::{Protection, Sound};

/// A ring request with these parts in reach; gives the notice's data.
fn ring(unit: &mut Unit, n: u8, mask: u8, timeout: u8, reach: u32) -> Result<Vec<u8>, u8> {
    let key = sub_key(&IDENTITY, 2);
    tag::read(unit, &[n; 8], &mut [0; 42]).unwrap();
    let answer = write_in_reach(unit, &request(&key, &[n; 8], 0x05, &[mask, 0, timeout, 2]), reach)?;
    assert_eq!(answer, tag::make_answer(&key, &[n; 8], 0x05, &answer[10..]));
    Ok(answer[10..].to_vec())
}

#[test]
fn starts_and_stops() {
    // Mask asked for, reach, what sounds before; status, and what sounds after. A ring has 40 tenths left before, 9 when started.
    for (asked, reach, before, status, after) in [
        (7, 7, 0, 0, 7), (7, 5, 0, 0, 5), (0xff, 2, 0, 0, 2), (3, 6, 0, 0, 2), (1, 6, 0, 1, 0), (7, 0, 0, 1, 0), (0xff, 0, 0, 1, 0),
        (7, 4, 3, 0, 4), (1, 6, 3, 1, 3), (4, 3, 3, 1, 3), (4, 0, 3, 1, 3), (2, 7, 2, 0, 2),
        (0, 7, 0, 4, 0), (0, 0, 0, 4, 0), (0, 7, 3, 4, 0), (0, 1, 3, 4, 0), (0, 6, 3, 4, 0), (0, 4, 3, 1, 3), (0, 0, 3, 1, 3),
    ] {
        let mut unit = provisioned(3, 1);
        if before != 0 {
            unit.sound = Sound::Ringing { mask: before, volume: 1, left: 40 };
            unit.ring_nonce = [0xee; 8];
        }
        let old = unit.clone();
        let left = match (status, after) {
            (0, _) => 9,
            (1, 0) | (4, _) => 0,
            _ => 40,
        };
        assert_eq!(ring(&mut unit, 1, asked, 9, reach), Ok(vec![status, after as u8, 0, left]), "{asked} {reach} {before}");
        match status {
            0 => assert_eq!((unit.sound, unit.ring_nonce), (Sound::Ringing { mask: after, volume: 2, left: 9 }, [1; 8])),
            1 => assert_eq!((unit.sound, unit.ring_nonce), (old.sound, old.ring_nonce)),
            _ => assert_eq!((unit.sound, unit.ring_nonce), (Sound::Silent, [0; 8])),
        }
        assert!(!unit.live);
    }
}

#[test]
fn values_before_reach_and_reach_before_the_nonce() {
    let mut unit = provisioned(2, 1);
    assert_eq!(ring(&mut unit, 1, 4, 9, 0), Err(0x81));
    assert_eq!(ring(&mut unit, 2, 1, 0, 0), Err(0x81));
    for (components, outside) in [(0, 1), (1, 2), (2, 4), (3, 8), (3, 0x80), (3, 0x100), (3, 1 << 31), (0, u32::MAX)] {
        let mut unit = provisioned(components, 1);
        unit.protection = Protection::On { skip: true };
        tag::read(&mut unit, &[3; 8], &mut [0; 42]).unwrap();
        let before = unit.clone();
        for data in [request(&OWNER_KEY, &[3; 8], 0x01, &[]), vec![], vec![9, 9], vec![0x05, 12, 0, 0, 0, 0, 0, 0, 0, 0, 0, 0, 0, 0]] {
            let mut answer = [0xa5; 42];
            assert_eq!(tag::write(&mut unit, &data, outside, &mut answer), Err(1));
            assert_eq!(tag::write(&mut unit, &data, outside | tag::ringable(components), &mut answer), Err(1));
            assert_eq!(answer, [0xa5; 42]);
            assert_eq!(unit, before);
        }
        assert!(write_in_reach(&mut unit, &request(&OWNER_KEY, &[3; 8], 0x01, &[]), 0).is_ok());
        assert_eq!(tag::write(&mut unit, &[], outside, &mut [0; 42]), Err(1));
        assert_eq!(tag::write(&mut unit, &[], outside, &mut [0; 41]), Err(6));
    }
}
