//! The frame reader over the C boundary beside the reference's: every value at every place, every length, texts near frames, with and
//! without r; and the frames that the tag sends.

use crate::library::{ours, read_frame};
use crate::random::Random;
use reference::boundary::{Call, ENDED_BASE, REFUSAL_BASE};
use reference::damage;
use reference::frames::{read, read_with_r, render, Parts, Refused};
use reference::primitives::sha256;
use reference::record::encode;
use reference::tag::{Protection, Unit, NO_ROOM, ROOM};
use std::collections::BTreeMap;

/// Identifier, protection, whether there are flags, the flags byte; with r the battery level too.
const PARTS: usize = 23;
const PARTS_WITH_R: usize = 24;

struct Comparison {
    rng: Random,
    cases: u64,
    counts: BTreeMap<String, u64>,
}

/// What the call gives and writes, by the reference.
fn wanted(text: &[u8], r: Option<&[u8]>, parts: &mut [u8]) -> u64 {
    let size = if r.is_some() { PARTS_WITH_R } else { PARTS };
    if parts.len() < size {
        return REFUSAL_BASE + NO_ROOM as u64;
    }
    let result = match r {
        None => read(text).map(|found| (found, 0)),
        Some(r) => read_with_r(text, r),
    };
    match result {
        Ok((found, battery)) => {
            parts[..20].copy_from_slice(&found.identifier);
            parts[20] = found.protected as u8;
            parts[21] = found.flags.is_some() as u8;
            parts[22] = found.flags.unwrap_or(0);
            if r.is_some() {
                parts[23] = battery;
            }
            size as u64
        }
        Err(Refused { number, place }) => REFUSAL_BASE + number as u64 + ENDED_BASE * place as u64,
    }
}

impl Comparison {
    fn one(&mut self, text: &[u8], r: Option<&[u8]>, room: usize) {
        let lent = self.rng.bytes(room);
        let (mut left, mut right) = (lent.clone(), lent);
        let got = read_frame(text, r, &mut left);
        let want = wanted(text, r, &mut right);
        if got != want || left != right {
            println!("DIFFERENCE at case {}: text {text:02x?}, r {r:02x?}, room {room}\ngot {got:#x} want {want:#x}", self.cases);
            println!("parts got  {left:02x?}\nparts want {right:02x?}");
            std::process::exit(1);
        }
        self.cases += 1;
        let refusal = (want % ENDED_BASE).saturating_sub(REFUSAL_BASE);
        let kind = match refusal {
            0 => "read".into(),
            8 => format!("refused 8 at {:2}", (want / ENDED_BASE).min(30)),
            _ => format!("refused {refusal}"),
        };
        *self.counts.entry(kind).or_default() += 1;
    }

    /// A text without r, with a right r and with others.
    fn each(&mut self, text: &[u8], r: &[u8; 20]) {
        self.one(text, None, PARTS);
        self.one(text, Some(r), PARTS_WITH_R);
        let other = self.rng.bytes(20);
        self.one(text, Some(&other), PARTS_WITH_R + 3);
        let size = self.rng.below(41) as usize;
        let other = self.rng.bytes(size);
        self.one(text, Some(&other), PARTS_WITH_R);
        let room = self.rng.below(30) as usize;
        self.one(text, None, room);
        self.one(text, Some(r), room);
    }
}

/// A frame of each kind: no flags, flags open, flags under protection; the flags are right for r.
fn frames(rng: &mut Random, r: &[u8; 20]) -> [Vec<u8>; 3] {
    let identifier: [u8; 20] = rng.bytes(20).try_into().unwrap();
    let last = sha256(r)[31];
    let open = 2 * (1 + rng.below(3) as u8);
    let protected = 1 + 2 * rng.below(4) as u8;
    [(false, None), (false, Some(open ^ last)), (true, Some(protected ^ last))].map(|(protected, flags)| render(&Parts { identifier, protected, flags }))
}

/// A text near a frame: bytes changed, cut off or added.
fn near(rng: &mut Random, frame: &[u8]) -> Vec<u8> {
    let mut text = frame.to_vec();
    for _ in 0..rng.below(3) {
        let place = if rng.one_in(2) { rng.below(8) } else { rng.below(text.len() as u64) } as usize;
        text[place] = match rng.below(4) {
            0 => [0x00, 0x02, 0x18, 0x19, 0x40, 0x41, 0x16, 0xaa, 0xfe][rng.below(9) as usize],
            1 => text[place] ^ 1 << rng.below(8),
            _ => rng.next() as u8,
        };
    }
    match rng.below(6) {
        0 => text.truncate(rng.below(text.len() as u64 + 1) as usize),
        1 => {
            let more = 1 + rng.below(3) as usize;
            text.extend(rng.bytes(more));
        }
        _ => (),
    }
    text
}

/// What the tag sends, read back to what it was made from.
fn sent(comparison: &mut Comparison) {
    let unit: Unit = {
        let mut unit = damage::full();
        let rng = &mut comparison.rng;
        unit.battery = rng.below(4) as u32;
        unit.protection = [Protection::Off, Protection::On { skip: false }, Protection::On { skip: true }][rng.below(3) as usize];
        // Few windows: the reference takes its time for each.
        unit.seconds = (rng.below(40) as u32).wrapping_mul(0x1234_5678);
        unit
    };
    let made = unit.current_identifier().unwrap();
    let mut answer = [0; ROOM];
    let count = ours(&Call::Frame, &mut encode(&unit), &mut answer) as usize;
    let frame = &answer[..count];
    let expected = Parts {
        identifier: made.id,
        protected: unit.protection != Protection::Off,
        flags: frame.get(28).copied(),
    };
    assert_eq!(read_with_r(frame, &made.r), Ok((expected, unit.battery as u8)), "the frame of {unit:?}");
    comparison.each(frame, &made.r);
}

pub fn compare(count: u64, rng: Random) {
    let mut c = Comparison { rng, cases: 0, counts: BTreeMap::new() };
    let began = std::time::Instant::now();
    let r: [u8; 20] = c.rng.bytes(20).try_into().unwrap();
    for frame in frames(&mut c.rng, &r) {
        for place in 0..frame.len() {
            for value in 0..=255 {
                let mut text = frame.clone();
                text[place] = value;
                c.each(&text, &r);
            }
        }
        for length in 0..=64 {
            let mut text = frame.clone();
            text.resize(length, 0x40);
            c.each(&text, &r);
            let text = c.rng.bytes(length);
            c.each(&text, &r);
        }
        for size in 0..=40 {
            c.one(&frame, Some(&vec![7; size]), PARTS_WITH_R);
        }
        for room in 0..=40 {
            c.one(&frame, None, room);
            c.one(&frame, Some(&r), room);
        }
    }
    for _ in 0..count {
        let r: [u8; 20] = c.rng.bytes(20).try_into().unwrap();
        let kind = c.rng.below(3) as usize;
        let frame = frames(&mut c.rng, &r)[kind].clone();
        let text = near(&mut c.rng, &frame);
        c.each(&text, &r);
        if c.rng.one_in(10) {
            sent(&mut c);
        }
    }
    println!("no difference in {} frame reads, {:.1} s", c.cases, began.elapsed().as_secs_f64());
    for (kind, n) in c.counts {
        println!("{kind:>20}  {n}");
    }
}
