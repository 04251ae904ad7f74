//! The proved library beside the reference, which was written from the papers alone.
//!
//!     stress [CALLS] [SEED]         random calls with random and damaged records, rooms from 0 to 64 and writes of 0 to 300 bytes: return
//!                                   value, record bytes and answer bytes must agree after each call
//!     stress sleep [COUNT] [SEED]   the tenths that a unit may sleep, on random and damaged records, against those found tenth by tenth
//!     stress frames [COUNT] [SEED]  the frame reader, on every value at every place, every length to 64, and COUNT texts near frames

mod frames;
mod library;
mod random;
mod sleeping;

use library::ours;
use random::Random;
use reference::boundary::{run, Call, ENDED_BASE, REFUSAL_BASE};
use reference::primitives::aes128_encrypt;
use reference::record::{decode, SIZE as RECORD};
use reference::tag::{self, Unit, ROOM, SLOTS};
use std::collections::BTreeMap;

/// An ID that the unit often permits; a clear is rare.
fn some_id(rng: &mut Random, unit: &Unit) -> u8 {
    if rng.one_in(4) {
        rng.below(9) as u8
    } else if !unit.has_owner {
        1
    } else if !unit.has_identity {
        2
    } else {
        [0, 1, 2, 4, 5, 5, 5, 6, 7, 8][rng.below(10) as usize]
    }
}

/// A write that is often right: its tag is made with a key of the unit that serves its ID.
fn some_write(rng: &mut Random, record: &[u8]) -> Vec<u8> {
    if rng.one_in(6) {
        let n = rng.below(301) as usize;
        return rng.bytes(n);
    }
    let Some(unit) = decode(record) else { return rng.bytes(12) };
    let id = some_id(rng, &unit);
    let sub = |n: u8| reference::primitives::sha256(&[&unit.identity[..], &[n]].concat())[..8].to_vec();
    let proof = reference::primitives::sha256(&[&unit.identity[..], &unit.nonces[0][..]].concat())[..8].to_vec();
    let slots = SLOTS as u64;
    let held = unit.keys[rng.below((unit.key_count).clamp(1, slots)) as usize].to_vec();
    let owner = if unit.owner < slots { unit.keys[unit.owner as usize].to_vec() } else { held.clone() };
    let (key, mut data) = match id {
        0 | 1 => (held, vec![]),
        2 => {
            // Of few keys, so that the reference finds most identifiers worked out already.
            let mut data = encrypted(&owner, [rng.below(6) as u8; 32]);
            if unit.has_identity || rng.one_in(8) {
                data.extend(&proof);
            }
            (owner, data)
        }
        3 => (owner, proof),
        4 => (sub(1), vec![]),
        5 => {
            let mask = [0, 1, 2, 3, 4, 7, 8, 0xFF][rng.below(8) as usize];
            let timeout = [0, 1, 5, 30, 5999, 6000, 6001][rng.below(7) as usize] as u16;
            (sub(2), [&[mask][..], &timeout.to_be_bytes(), &[rng.below(5) as u8]].concat())
        }
        6 => (sub(2), vec![]),
        7 => (sub(3), [vec![], vec![0], vec![1], vec![2]][rng.below(4) as usize].clone()),
        _ => (sub(3), proof),
    };
    if rng.one_in(12) && !data.is_empty() {
        let i = rng.below(data.len() as u64) as usize;
        data[i] ^= 1 << rng.below(8);
    }
    let size = 8 + data.len() as u8;
    let mut tag = tag::request_tag(&key, &unit.nonces[0], id, size, &data);
    if rng.one_in(10) {
        tag[rng.below(8) as usize] ^= 1;
    }
    let mut w = [&[id, size][..], &tag, &data].concat();
    if rng.one_in(20) {
        w.pop();
    }
    w
}

/// A mask of parts in reach, now and then with a bit that the unit hasn't.
fn some_reach(rng: &mut Random, unit: Option<&Unit>) -> u32 {
    let parts = unit.map_or(7, |unit| tag::ringable(unit.components));
    match rng.below(24) {
        0 => 1 << rng.below(32),
        1 => rng.next() as u32,
        2..=12 => parts,
        _ => parts & rng.next() as u32,
    }
}

/// The identity key as 0x02 carries it: two blocks encrypted with the owner key.
fn encrypted(owner: &[u8], identity: [u8; 32]) -> Vec<u8> {
    let owner = owner.try_into().unwrap();
    identity.chunks(16).flat_map(|block| aes128_encrypt(owner, block.try_into().unwrap())).collect()
}

/// Tenths, mostly too few to leave the window.
fn some_time(rng: &mut Random) -> u32 {
    match rng.below(40) {
        0 => 10_240,
        1 => u32::MAX,
        2 => rng.below(20_000) as u32,
        3 => rng.next() as u32,
        n => [0, 1, 4, 5, 6, 29, 30, 599, 600, 6000][n as usize % 10],
    }
}

fn some_call(rng: &mut Random, record: &[u8]) -> Call {
    let unit = decode(record);
    if unit.as_ref().is_some_and(|u| u.live) && rng.one_in(2) {
        return Call::Write(some_write(rng, record), some_reach(rng, unit.as_ref()));
    }
    match rng.below(41) {
        0 if rng.one_in(12) => Call::New(rng.below(140) as i32 - 110, rng.below(5) as u32, rng.below(3) as u32),
        0..=9 => {
            let n = if rng.one_in(12) { rng.below(12) as usize } else { 8 };
            // Of few values, so that nonces come back after any number of others.
            Call::Read(if rng.one_in(3) { rng.bytes(n) } else { vec![rng.below(60) as u8; n] })
        }
        10..=23 => Call::Write(some_write(rng, record), some_reach(rng, unit.as_ref())),
        24..=25 => Call::Button,
        26..=28 => Call::Elapsed(some_time(rng)),
        29 => Call::Pairing(rng.below(3) as u32),
        30 => Call::Battery(rng.below(6) as u32 * if rng.one_in(8) { 64 } else { 1 }),
        31..=33 => {
            let n = if rng.one_in(8) { rng.below(20) as usize } else { 16 };
            let fresh = rng.bytes(n);
            let place = rng.below(SLOTS as u64) as usize;
            Call::AccountKey(unit.filter(|_| rng.one_in(3)).map_or(fresh, |u| u.keys[place].to_vec()))
        }
        34..=36 => Call::Disconnect,
        37 => Call::Sleep,
        _ => Call::Frame,
    }
}

pub fn damaged(rng: &mut Random, record: &[u8]) -> Vec<u8> {
    let mut b = record.to_vec();
    match rng.below(8) {
        0 => b.truncate(rng.below(RECORD as u64) as usize),
        1 => b.push(0),
        2 => b = rng.bytes(RECORD),
        3 => b = vec![[0, 0xFF][rng.below(2) as usize]; RECORD],
        _ => {
            for _ in 0..=rng.below(2) {
                let i = rng.below(RECORD as u64) as usize;
                b[i] = [0, 1, 2, 3, 255, rng.next() as u8][rng.below(6) as usize];
            }
        }
    }
    b
}

/// Random calls, each on the record that the one before it left or on a damaged copy.
fn compare_calls(calls: u64, mut rng: Random) {
    let mut counts: BTreeMap<(&str, u64), u64> = BTreeMap::new();
    let mut record = vec![0u8; RECORD];
    let began = std::time::Instant::now();
    for step in 0..calls {
        let before = if rng.one_in(8) { damaged(&mut rng, &record) } else { record.clone() };
        let call = some_call(&mut rng, &before);
        let room = if rng.one_in(6) { rng.below(65) as usize } else { ROOM + rng.below(3) as usize };
        let lent = rng.bytes(room);
        let (mut r1, mut r2, mut a1, mut a2) = (before.clone(), before.clone(), lent.clone(), lent.clone());
        let got = ours(&call, &mut r1, &mut a1);
        let want = run(&call, &mut r2, &mut a2);
        if got != want || r1 != r2 || a1 != a2 {
            println!("DIFFERENCE at call {step}: {call:?}, room {room}\nrecord before {before:02x?}\ngot {got:#x} want {want:#x}");
            println!("record got  {r1:02x?}\nrecord want {r2:02x?}\nanswer got  {a1:02x?}\nanswer want {a2:02x?}");
            std::process::exit(1);
        }
        let refusal = (got % ENDED_BASE).saturating_sub(REFUSAL_BASE);
        *counts.entry((call.name(), refusal)).or_default() += 1;
        if before == record {
            record = r1;
        }
    }
    println!("no difference in {calls} calls, {:.1} s", began.elapsed().as_secs_f64());
    for ((call, refusal), n) in counts {
        match refusal {
            0 => println!("{call:>10}  served       {n}"),
            _ => println!("{call:>10}  refused 0x{refusal:02x} {n}"),
        }
    }
}

fn main() {
    let words: Vec<String> = std::env::args().skip(1).collect();
    let (what, numbers) = match words.first() {
        Some(word) if word.parse::<u64>().is_err() => (word.as_str(), &words[1..]),
        _ => ("calls", &words[..]),
    };
    let number = |place: usize, default: u64| numbers.get(place).map_or(default, |word| word.parse().expect("a number"));
    let rng = Random::from_seed(number(1, 1));
    match what {
        "calls" => compare_calls(number(0, 1_000_000), rng),
        "sleep" => sleeping::compare(number(0, 100_000), rng),
        "frames" => frames::compare(number(0, 100_000), rng),
        _ => panic!("calls, sleep or frames"),
    }
}
