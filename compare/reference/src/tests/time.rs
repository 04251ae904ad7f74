//! Elapsed time: the literal loop, the quick version, and cutting.

use super::*;
use crate::tag::{elapsed, frame, one_tenth, sleep, window_of, pass_quickly, pass_slowly, Passed, Sound};

fn random_unit(dice: &mut Dice) -> Unit {
    let mut unit = provisioned(3, 1);
    unit.seconds = match dice.below(3) {
        0 => dice.below(3_000) as u32,
        1 => u32::MAX - dice.below(3_000) as u32,
        _ => dice.next() as u32,
    };
    unit.tenth = dice.below(10) as u32;
    unit.consent = if dice.below(2) == 0 { 0 } else { dice.below(601) as u32 };
    if dice.below(3) > 0 {
        let left = if dice.below(2) == 0 { 1 + dice.below(20) } else { 1 + dice.below(6_000) } as u32;
        unit.sound = Sound::Ringing { mask: 5, volume: 2, left };
        unit.ring_nonce = [dice.next() as u8; 8];
    }
    assert!(unit.well_formed());
    unit
}

#[test]
fn quick_and_slow_agree() {
    let mut dice = Dice(1);
    for round in 0..3_000 {
        let unit = random_unit(&mut dice);
        let tenths = match dice.below(4) {
            0 => dice.below(12),
            1 => dice.below(700),
            2 => dice.below(7_000),
            _ if round % 10 == 0 => dice.below(100_000),
            _ => dice.below(50),
        } as u32;
        let (mut slow, mut quick) = (unit.clone(), unit.clone());
        assert_eq!(pass_slowly(&mut slow, tenths), pass_quickly(&mut quick, tenths));
        assert_eq!(slow, quick);
        assert!(slow.well_formed());
    }
}

#[test]
fn quick_and_slow_agree_near_the_ring_end() {
    for left in [1u32, 2, 5, 599, 600, 601, 5_999, 6_000] {
        for tenths in [0, 1, left - 1, left, left + 1, 600, 6_000, 20_001] {
            let mut unit = provisioned(1, 0);
            unit.sound = Sound::Ringing { mask: 1, volume: 0, left };
            unit.ring_nonce = [7; 8];
            unit.consent = 600;
            let (mut slow, mut quick) = (unit.clone(), unit);
            assert_eq!(pass_slowly(&mut slow, tenths), pass_quickly(&mut quick, tenths));
            assert_eq!(slow, quick);
        }
    }
}

#[test]
fn largest_count() {
    // 4,294,967,295 tenths are 429,496,729 seconds and 5 tenths.
    let mut unit = provisioned(1, 0);
    unit.seconds = u32::MAX;
    unit.tenth = 5;
    let passed = elapsed(&mut unit, u32::MAX, &mut [0; 42]).unwrap();
    assert_eq!(passed, Passed { written: 0, at: 0 });
    assert_eq!((unit.seconds, unit.tenth), (429_496_729, 0));
}

#[test]
fn cutting() {
    let mut dice = Dice(2);
    for _ in 0..1_000 {
        let unit = random_unit(&mut dice);
        let (first, second) = (dice.below(400) as u32, dice.below(400) as u32);
        let (mut whole, mut cut) = (unit.clone(), unit);
        let (mut a, mut b, mut c) = ([0; 42], [0; 42], [0; 42]);
        let all = elapsed(&mut whole, first + second, &mut a).unwrap();
        let one = elapsed(&mut cut, first, &mut b).unwrap();
        let two = elapsed(&mut cut, second, &mut c).unwrap();
        assert_eq!(whole, cut);
        assert!(one.at == 0 || two.at == 0);
        let at = if one.at != 0 { one.at } else if two.at != 0 { first + two.at } else { 0 };
        assert_eq!(all.at, at);
        if one.at != 0 {
            assert_eq!(a, b);
        } else {
            assert_eq!(a, c);
        }
    }
}

#[test]
fn one_tenth_by_hand() {
    let mut unit = provisioned(1, 0);
    unit.consent = 1;
    assert_eq!(one_tenth(&mut unit), None);
    assert_eq!((unit.seconds, unit.tenth, unit.consent), (0, 1, 0));
    for _ in 0..9 {
        assert_eq!(one_tenth(&mut unit), None);
    }
    assert_eq!((unit.seconds, unit.tenth, unit.consent), (1, 0, 0));
}

#[test]
fn no_time_changes_nothing() {
    let mut dice = Dice(4);
    for _ in 0..100 {
        let unit = random_unit(&mut dice);
        let mut copy = unit.clone();
        let mut answer = [0xa5; 42];
        assert_eq!(elapsed(&mut copy, 0, &mut answer), Ok(Passed { written: 0, at: 0 }));
        assert_eq!(copy, unit);
        assert_eq!(answer, [0xa5; 42]);
        assert_eq!(elapsed(&mut copy, 0, &mut answer[..41]), Err(6));
    }
}

#[test]
fn sleep_by_hand() {
    let mut unit = tag::new_unit(0, 1, 0).unwrap();
    assert_eq!(sleep(&unit), Ok(10_240));
    unit.tenth = 1;
    assert_eq!(sleep(&unit), Ok(10_239));
    (unit.seconds, unit.tenth) = (1_023, 9);
    assert_eq!(sleep(&unit), Ok(1));
    (unit.seconds, unit.tenth) = (1_024, 0);
    assert_eq!(sleep(&unit), Ok(10_240));
    (unit.seconds, unit.tenth) = (u32::MAX, 8);
    assert_eq!(sleep(&unit), Ok(2));
    unit.consent = 1;
    assert_eq!(sleep(&unit), Ok(1));
    unit.seconds = 0;
    unit.consent = 600;
    assert_eq!(sleep(&unit), Ok(600));
    let mut unit = provisioned(1, 0);
    unit.sound = Sound::Ringing { mask: 1, volume: 0, left: 6_000 };
    assert_eq!(sleep(&unit), Ok(6_000));
    unit.consent = 599;
    unit.pairing = true;
    assert_eq!(sleep(&unit), Ok(599));
    unit.sound = Sound::Ringing { mask: 1, volume: 0, left: 598 };
    assert_eq!(sleep(&unit), Ok(598));
}

/// A shorter sleep, however it is cut, gives no notice, the same frame or refusal, the same yes or no on consent; at the named tenth one of
/// the four things happens.
#[test]
fn sleeps_and_what_they_miss() {
    let mut dice = Dice(8);
    for _ in 0..300 {
        let unit = random_unit(&mut dice);
        let tenths = sleep(&unit).unwrap();
        assert!((1..=10_240).contains(&tenths));
        let mut shown = ([0xa5; 42], [0xa5; 42]);
        let before = frame(&mut unit.clone(), &mut shown.0);
        let mut asleep = unit.clone();
        let mut rest = tenths - 1;
        while rest > 0 {
            let piece = 1 + dice.below(rest as u64) as u32;
            assert_eq!(elapsed(&mut asleep, piece, &mut [0; 42]).unwrap().at, 0);
            rest -= piece;
        }
        assert_eq!(frame(&mut asleep.clone(), &mut shown.1), before);
        assert_eq!(shown.0, shown.1);
        assert_eq!(asleep.consent == 0, unit.consent == 0);
        let mut awake = asleep.clone();
        let ended = elapsed(&mut awake, 1, &mut [0; 42]).unwrap().at != 0;
        let consent = asleep.consent != 0 && awake.consent == 0;
        assert!(ended || consent || window_of(awake.seconds) != window_of(asleep.seconds) || awake.seconds == 0);
    }
}
