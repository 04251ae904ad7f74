//! The four errors that a hurried builder makes.

use super::*;
use crate::tag::{Protection, Sound};

/// Letting a skipped ring run with no live nonce.
#[test]
fn skipped_ring_needs_a_live_nonce() {
    let mut unit = provisioned(1, 1);
    unit.protection = Protection::On { skip: true };
    let data = [0x05, 12, 1, 2, 3, 4, 5, 6, 7, 8, 0x01, 0, 50, 2];
    assert_eq!(write(&mut unit, &data), Err(0x80));
    assert_eq!(unit.sound, Sound::Silent);
    tag::read(&mut unit, &[3; 8], &mut [0; 42]).unwrap();
    let answer = write(&mut unit, &data).unwrap();
    let ring_key = sub_key(&IDENTITY, 2);
    assert_eq!(answer, tag::make_answer(&ring_key, &[3; 8], 0x05, &[0, 1, 0, 50]));
    assert_eq!(unit.ring_nonce, [3; 8]);
    assert_eq!(write(&mut unit, &data), Err(0x80));
    // Any tag passes for a stop too, but not for 0x06.
    tag::read(&mut unit, &[4; 8], &mut [0; 42]).unwrap();
    assert_eq!(write(&mut unit, &[0x06, 8, 1, 2, 3, 4, 5, 6, 7, 8]), Err(0x80));
    tag::read(&mut unit, &[5; 8], &mut [0; 42]).unwrap();
    let stop = [0x05, 12, 1, 2, 3, 4, 5, 6, 7, 8, 0x00, 0, 0, 0];
    let answer = write(&mut unit, &stop).unwrap();
    assert_eq!(answer, tag::make_answer(&ring_key, &[5; 8], 0x05, &[4, 0, 0, 0]));
    // With the skip flag off, a wrong tag does not pass.
    unit.protection = Protection::On { skip: false };
    tag::read(&mut unit, &[6; 8], &mut [0; 42]).unwrap();
    assert_eq!(write(&mut unit, &data), Err(0x80));
}

/// Signing a timeout notice with the newest nonce.
#[test]
fn timeout_notice_has_the_nonce_of_the_ring() {
    let ring_key = sub_key(&IDENTITY, 2);
    for by_button in [false, true] {
        let mut unit = provisioned(1, 1);
        exchange(&mut unit, [1; 8], &ring_key, 0x05, &[1, 0, 5, 0]).unwrap();
        exchange(&mut unit, [2; 8], &ring_key, 0x06, &[]).unwrap();
        tag::read(&mut unit, &[3; 8], &mut [0; 42]).unwrap();
        let mut answer = [0; 42];
        let status = if by_button {
            assert_eq!(tag::button(&mut unit, &mut answer), Ok(14));
            assert_eq!(unit.consent, 0);
            3
        } else {
            assert_eq!(tag::elapsed(&mut unit, 9, &mut answer).unwrap().at, 5);
            2
        };
        let expected = tag::make_answer(&ring_key, &[1; 8], 0x05, &[status, 0, 0, 0]);
        assert_eq!(answer[..14].to_vec(), expected);
        assert_eq!(unit.ring_nonce, [0; 8]);
        assert!(unit.live);
    }
    // A stop by write is signed with its own nonce.
    let mut unit = provisioned(1, 1);
    exchange(&mut unit, [1; 8], &ring_key, 0x05, &[1, 0, 5, 0]).unwrap();
    let answer = exchange(&mut unit, [2; 8], &ring_key, 0x05, &[0, 0, 5, 0]).unwrap();
    assert_eq!(answer, tag::make_answer(&ring_key, &[2; 8], 0x05, &[4, 0, 0, 0]));
}

/// Taking 0x02 with a key proof on a unit that has no key.
#[test]
fn key_proof_without_a_key() {
    let mut unit = provisioned(1, 1);
    unit.has_identity = false;
    unit.identity = [0; 32];
    let nonce = [1; 8];
    // Also not with the proof that an all-zero key would have.
    for identity in [[0; 32], IDENTITY] {
        let mut data = vec![0x33; 32];
        data.extend_from_slice(&proof(&identity, &nonce));
        let mut copy = unit.clone();
        assert_eq!(exchange(&mut copy, nonce, &OWNER_KEY, 0x02, &data), Err(0x80));
        assert!(!copy.has_identity);
    }
    // Without a proof it passes, and after the disconnect only with one.
    assert!(exchange(&mut unit, nonce, &OWNER_KEY, 0x02, &[0x33; 32]).is_ok());
    assert!(!unit.has_identity && unit.has_waiting);
    tag::disconnect(&mut unit).unwrap();
    assert!(unit.has_identity);
    assert_eq!(exchange(&mut unit, [2; 8], &OWNER_KEY, 0x02, &[0x33; 32]), Err(0x80));
    let mut data = vec![0x44; 32];
    data.extend_from_slice(&proof(&unit.identity, &[3; 8]));
    assert!(exchange(&mut unit, [3; 8], &OWNER_KEY, 0x02, &data).is_ok());
}

/// Choosing consent before the recovery tag.
#[test]
fn recovery_tag_before_consent() {
    let mut unit = provisioned(1, 1);
    let recovery_key = sub_key(&IDENTITY, 1);
    assert_eq!(exchange(&mut unit, [1; 8], b"wrong", 0x04, &[]), Err(0x80));
    assert_eq!(exchange(&mut unit, [2; 8], &recovery_key, 0x04, &[]), Err(0x82));
    tag::button(&mut unit, &mut [0; 42]).unwrap();
    assert_eq!(exchange(&mut unit, [3; 8], b"wrong", 0x04, &[]), Err(0x80));
    let answer = exchange(&mut unit, [4; 8], &recovery_key, 0x04, &[]).unwrap();
    assert_eq!(answer.len(), 42);
    // Consent isn't used up.
    tag::elapsed(&mut unit, 599, &mut [0; 42]).unwrap();
    assert!(exchange(&mut unit, [5; 8], &recovery_key, 0x04, &[]).is_ok());
    tag::elapsed(&mut unit, 1, &mut [0; 42]).unwrap();
    assert_eq!(exchange(&mut unit, [6; 8], &recovery_key, 0x04, &[]), Err(0x82));
    tag::pairing(&mut unit, true).unwrap();
    assert!(exchange(&mut unit, [7; 8], &recovery_key, 0x04, &[]).is_ok());
}
