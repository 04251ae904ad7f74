//! The frame reader: every place, every length, and both round trips.

use super::*;
use crate::frames::{read, read_with_r, render, Parts, Refused};
use crate::primitives::sha256;
use crate::tag::Protection;

fn at(place: usize) -> Refused {
    Refused { number: 8, place }
}

const SHORT: [u8; 28] = [2, 1, 6, 0x18, 0x16, 0xaa, 0xfe, 0x40, 0, 1, 2, 3, 4, 5, 6, 7, 8, 9, 10, 11, 12, 13, 14, 15, 16, 17, 18, 19];

#[test]
fn by_hand() {
    let identifier = core::array::from_fn(|n| n as u8);
    assert_eq!(read(&SHORT), Ok(Parts { identifier, protected: false, flags: None }));
    for length in 0..28 {
        assert_eq!(read(&SHORT[..length]), Err(at(length)));
    }
    assert_eq!(read(&[&SHORT[..], &[0]].concat()), Err(at(28)));
    let mut long = [&SHORT[..], &[0x77]].concat();
    long[3] = 0x19;
    assert_eq!(read(&long), Ok(Parts { identifier, protected: false, flags: Some(0x77) }));
    assert_eq!(read(&long[..28]), Err(at(28)));
    assert_eq!(read(&[&long[..], &[0; 9]].concat()), Err(at(29)));
    long[7] = 0x41;
    assert_eq!(read(&long), Ok(Parts { identifier, protected: true, flags: Some(0x77) }));
    // The earliest wrong byte counts, also before the end of a short one and before a byte too many.
    long[3] = 0x18;
    assert_eq!(read(&long), Err(at(7)));
    assert_eq!(read(&long[..8]), Err(at(7)));
    assert_eq!(read(&long[..7]), Err(at(7)));
    long[5] = 0xab;
    assert_eq!(read(&long), Err(at(5)));
    assert_eq!(read(&[]), Err(at(0)));
    assert_eq!(read(&[3]), Err(at(0)));
}

/// Whether some frame begins with this text, found without the reader: a made frame agrees with it wherever both have bytes.
fn begins_a_frame(text: &[u8]) -> bool {
    let mut identifier = [0; 20];
    for (n, byte) in text.iter().skip(8).take(20).enumerate() {
        identifier[n] = *byte;
    }
    let flags = text.get(28).copied().unwrap_or(0);
    [(false, None), (false, Some(flags)), (true, Some(flags))].into_iter().any(|(protected, flags)| render(&Parts { identifier, protected, flags }).starts_with(text))
}

/// Refused at place i: the first i bytes begin a frame and the first i + 1 don't, or the text is a proper beginning.
#[test]
fn first_wrong_byte() {
    let mut dice = Dice(12);
    for _ in 0..20_000 {
        let mut text = SHORT.to_vec();
        text[3] += dice.below(2) as u8;
        text[7] += dice.below(2) as u8;
        for _ in 0..dice.below(3) {
            let place = dice.below(28) as usize;
            text[place] = dice.next() as u8;
        }
        text.extend((0..dice.below(4)).map(|n| n as u8));
        text.truncate(if dice.below(3) == 0 { dice.below(32) as usize } else { 40 });
        match read(&text) {
            Ok(parts) => assert_eq!(render(&parts), text),
            Err(Refused { number, place }) => {
                assert_eq!(number, 8);
                assert!(begins_a_frame(&text[..place]));
                assert!(place == text.len() || !begins_a_frame(&text[..place + 1]));
            }
        }
    }
}

#[test]
fn with_r() {
    let r = [9; 20];
    let last = sha256(&r)[31];
    let parts = |protected, flags| Parts { identifier: [3; 20], protected, flags };
    for protected in [false, true] {
        for plain in 0..=255u8 {
            let made = parts(protected, Some(plain ^ last));
            let right = plain < 8 && plain != 0 && (plain & 1 == 1) == protected;
            let expected = if right { Ok((made, plain / 2)) } else { Err(at(28)) };
            assert_eq!(read_with_r(&render(&made), &r), expected, "{plain}");
            assert_eq!(read(&render(&made)), Ok(made));
        }
    }
    assert_eq!(read_with_r(&SHORT, &r).unwrap().1, 0);
    for size in [0, 19, 21, 32] {
        let wrong = vec![9; size];
        assert_eq!(read_with_r(&SHORT, &wrong), Err(Refused { number: 1, place: 0 }));
        assert_eq!(read_with_r(&SHORT[..9], &wrong), Err(at(9)));
    }
    // A byte too many counts before a wrong flags byte.
    let mut text = render(&parts(false, Some(last)));
    assert_eq!(read_with_r(&text, &r), Err(at(28)));
    text.push(0);
    assert_eq!(read_with_r(&text, &r), Err(at(29)));
}

#[test]
fn what_the_tag_sends() {
    for battery in 0..4 {
        for protection in [Protection::Off, Protection::On { skip: false }, Protection::On { skip: true }] {
            let mut unit = provisioned(1, 0);
            unit.protection = protection;
            unit.battery = battery;
            unit.seconds = 1_024 * battery;
            let identifier = unit.current_identifier().unwrap();
            let mut answer = [0; 42];
            let count = tag::frame(&mut unit, &mut answer).unwrap();
            let (parts, level) = read_with_r(&answer[..count], &identifier.r).unwrap();
            assert_eq!((parts.identifier, parts.protected, level as u32), (identifier.id, protection != Protection::Off, battery));
            assert_eq!(render(&parts), answer[..count]);
        }
    }
}
