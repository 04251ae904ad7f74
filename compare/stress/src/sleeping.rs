//! The tenths that a unit may sleep: `tag_sleep` beside the reference, which lets tenth after tenth pass.

use crate::library::ours;
use crate::random::Random;
use reference::boundary::{run, Call, ENDED_BASE, REFUSAL_BASE};
use reference::damage;
use reference::record::encode;
use reference::tag::{ringable, Sound, Unit, LONGEST_RING};
use std::collections::BTreeMap;

/// A number up to a limit, often near one of its ends.
fn up_to(rng: &mut Random, limit: u64) -> u64 {
    match rng.below(4) {
        0 => rng.below(limit.min(12) + 1),
        1 => limit - rng.below(limit.min(12) + 1),
        _ => rng.below(limit + 1),
    }
}

/// A well formed unit with any clock, ring and consent; near the ends of a window, of all seconds, of a ring and of consent more often.
fn some_unit(rng: &mut Random) -> Unit {
    let mut unit = if rng.one_in(3) { damage::fresh() } else { damage::quiet() };
    let window = match rng.below(3) {
        0 => 0,
        1 => u32::MAX - 1_023,
        _ => rng.next() as u32 & !1_023,
    };
    unit.seconds = window + up_to(rng, 1_023) as u32;
    unit.tenth = rng.below(10) as u32;
    unit.components = 1 + rng.below(3) as u32;
    unit.consent = if rng.one_in(2) { 0 } else { up_to(rng, 600) as u32 };
    unit.pairing = rng.one_in(2);
    if unit.has_identity && !rng.one_in(3) {
        let left = 1 + up_to(rng, LONGEST_RING as u64 - 1) as u32;
        unit.sound = Sound::Ringing { mask: ringable(unit.components), volume: 0, left };
        unit.ring_nonce = [rng.next() as u8; 8];
    }
    assert!(unit.well_formed());
    unit
}

pub fn compare(count: u64, mut rng: Random) {
    // How often each kind of thing comes next.
    let mut counts: BTreeMap<&str, u64> = BTreeMap::new();
    let began = std::time::Instant::now();
    for step in 0..count {
        let unit = some_unit(&mut rng);
        let mut record = encode(&unit);
        if rng.one_in(8) {
            record = crate::damaged(&mut rng, &record);
        }
        let (mut left, mut right) = (record.clone(), record.clone());
        let got = ours(&Call::Sleep, &mut left, &mut []);
        let want = run(&Call::Sleep, &mut right, &mut []);
        if got != want || left != record {
            println!("DIFFERENCE at record {step}: {record:02x?}\ngot {got:#x} want {want:#x}\nrecord after {left:02x?}");
            std::process::exit(1);
        }
        let tenths = (want / ENDED_BASE) as u32;
        let kind = match unit.sound {
            _ if want % ENDED_BASE >= REFUSAL_BASE => "refused",
            Sound::Ringing { left, .. } if left == tenths => "a ring ends",
            _ if unit.consent == tenths => "consent ends",
            _ => "the window changes",
        };
        *counts.entry(kind).or_default() += 1;
    }
    println!("no difference in {count} sleeps, {:.1} s", began.elapsed().as_secs_f64());
    for (kind, n) in counts {
        println!("{kind:>20}  {n}");
    }
}
