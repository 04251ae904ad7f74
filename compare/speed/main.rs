//! Measures the proved library beside Rust without proofs. The first word says what is done; each prints lines of fields with tabs between them.
//!   agree [PAIRS]          every ID, right and damaged, on various units: keys held, pairs of a read and a write, writes served, checksum; ends in a
//!                          panic where two programs differ
//!   time [TURNS [BEGIN]]   processor time, the least of that many turns, in which the programs follow one another, as series, program, nanoseconds
//!                          a call or pair of calls; only of the series whose names begin so
//!   count                  each series once inside `measured`, for callgrind to count: series and programs in order, with the calls counted
#[allow(dead_code)]
#[path = "../curves/plain.rs"]
mod curves;
mod library;
mod plain;
mod primitives;
mod series;
mod session;

use series::{agreed, checksum, mixed, Checksum, Slot, PROGRAMS};
use session::{Pair, OWNER};

/// A write that is measured: the pairs that are timed, and those that are counted. 0x01 works out an identifier and takes far longer than the others.
struct Measured {
    name: &'static str,
    id: u8,
    timed: u64,
    counted: u64,
}

const WRITES: [Measured; 5] = [
    Measured { name: "ring write 0x05", id: 0x05, timed: 10_000, counted: 100 },
    Measured { name: "parameter read 0x00", id: 0x00, timed: 10_000, counted: 100 },
    Measured { name: "set key 0x02", id: 0x02, timed: 10_000, counted: 100 },
    Measured { name: "recover key 0x04", id: 0x04, timed: 10_000, counted: 100 },
    Measured { name: "state 0x01", id: 0x01, timed: 100, counted: 2 },
];

/// The parts in which the pairs are timed.
const PARTS: usize = 10;

/// How many keys are held where time and instructions are measured, and where answers are compared. The last of them is the owner's, and it is used.
const MEASURED_KEYS: [usize; 2] = [1, plain::unit::MOST_KEYS];
const COMPARED_KEYS: [usize; 4] = [1, 2, 5, plain::unit::MOST_KEYS];

#[repr(C)]
struct Time {
    seconds: i64,
    nanoseconds: i64,
}

extern "C" {
    fn clock_gettime(clock: i32, time: *mut Time) -> i32;
}

/// Processor time of this thread, in nanoseconds.
fn now() -> f64 {
    let mut t = Time { seconds: 0, nanoseconds: 0 };
    unsafe { clock_gettime(3, &mut t) };
    t.seconds as f64 * 1e9 + t.nanoseconds as f64
}

/// What callgrind counts: it collects inside this function alone.
#[no_mangle]
#[inline(never)]
pub fn measured(work: &mut dyn FnMut()) {
    work()
}

fn every_write(mut f: impl FnMut(&str, &Measured, &[u8])) {
    for write in &WRITES {
        for keys in MEASURED_KEYS {
            let name = format!("{}, {keys} {}", write.name, if keys == 1 { "key" } else { "keys, the last" });
            f(&name, write, &session::measured(keys));
        }
    }
}

fn pairs_of(id: u8, count: u64) -> (Vec<Pair>, Vec<Slot>) {
    let pairs: Vec<Pair> = (0..count).map(|n| session::pair(id, OWNER, n)).collect();
    let slots = vec![Slot::default(); pairs.len()];
    (pairs, slots)
}

/// The least time of each work over the turns, in each of which all are done. A work has parts, which are timed one by one and whose least times are added:
/// what is short is rarely disturbed.
fn least(turns: usize, parts: usize, works: &mut [Box<dyn FnMut(usize) + '_>]) -> Vec<f64> {
    let mut best = vec![vec![f64::MAX; parts]; works.len()];
    for _ in 0..turns {
        for (work, best) in works.iter_mut().zip(&mut best) {
            for (part, best) in best.iter_mut().enumerate() {
                let from = now();
                work(part);
                *best = best.min(now() - from);
            }
        }
    }
    best.iter().map(|parts| parts.iter().sum()).collect()
}

fn time_writes(turns: usize, wanted: &str) {
    every_write(|name, write, start| {
        if !name.starts_with(wanted) {
            return;
        }
        let (pairs, mut slots) = pairs_of(write.id, write.timed);
        let sums = PROGRAMS.map(|p| checksum(&p, start, &pairs, &mut slots));
        assert!(sums.iter().all(|s| *s == sums[0]), "{name}: the programs answer differently");
        assert!(slots.iter().all(Slot::served), "{name}: a write is refused");
        println!("{name}\tchecksum\t{}", sums[0]);
        let mut rooms = PROGRAMS.map(|_| slots.clone());
        let works = PROGRAMS.iter().zip(&mut rooms).map(|(p, slots)| {
            let size = slots.len() / PARTS;
            let (pairs, mut slots) = (pairs.chunks(size).collect::<Vec<_>>(), slots.chunks_mut(size).collect::<Vec<_>>());
            Box::new(move |part: usize| drop((p.run)(start, pairs[part], slots[part]))) as Box<dyn FnMut(usize)>
        });
        let best = least(turns, PARTS, &mut works.collect::<Vec<_>>());
        PROGRAMS.iter().zip(best).for_each(|(p, ns)| println!("{name}\t{}\t{:.1}", p.name, ns / write.timed as f64));
    });
}

fn time_primitives(turns: usize, wanted: &str) {
    for row in primitives::ROWS.iter().filter(|row| row.name.starts_with(wanted)) {
        let answers = row.programs.iter().map(|(_, f)| primitives::run(*f, row.size, 100)).collect::<Vec<_>>();
        assert!(answers.iter().all(|a| *a == answers[0]), "{}: the programs answer differently", row.name);
        let works = row.programs.iter().map(|(_, f)| Box::new(|_| _ = primitives::run(*f, row.size, row.calls)) as Box<dyn FnMut(usize)>);
        let best = least(turns, 1, &mut works.collect::<Vec<_>>());
        row.programs.iter().zip(best).for_each(|((p, _), ns)| println!("{}\t{p}\t{:.1}", row.name, ns / row.calls as f64));
    }
}

fn counted(series: &str, program: &str, calls: u64, work: &mut dyn FnMut()) {
    measured(work);
    println!("{series}\t{program}\t{calls}");
}

fn count() {
    every_write(|name, write, start| {
        let (pairs, mut slots) = pairs_of(write.id, write.counted);
        for p in &PROGRAMS {
            counted(name, p.name, write.counted, &mut || drop((p.run)(start, &pairs, &mut slots)));
        }
    });
    for row in primitives::ROWS {
        for (program, f) in row.programs {
            let calls = if row.size > 10_000 { 1 } else { 20 };
            primitives::run(*f, row.size, 1);
            counted(row.name, program, calls, &mut || {
                primitives::run(*f, row.size, calls as usize);
            });
        }
    }
    series::growth(counted);
}

fn agree(pairs: u64) {
    for keys in COMPARED_KEYS {
        let (mut sum, mut count, mut served) = (Checksum::new(), 0, 0);
        let units = session::various(keys);
        let pairs = pairs / units.len() as u64;
        for start in units {
            let whole = plain::record::decode(&start).expect("a record").ringable_mask();
            let pairs = mixed(keys, whole, pairs);
            count += pairs.len();
            served += agreed(&start, &pairs, &mut sum);
        }
        println!("{keys}\t{count}\t{served}\t{}", sum.text());
    }
}

fn main() {
    let argument = |n| std::env::args().nth(n);
    let number = |n, usual: u64| argument(n).map_or(usual, |text| text.parse().expect("a number"));
    match argument(1).as_deref() {
        Some("agree") => agree(number(2, 20_000)),
        Some("time") => {
            let (turns, wanted) = (number(2, 25) as usize, argument(3).unwrap_or_default());
            time_writes(turns, &wanted);
            time_primitives(8 * turns, &wanted);
        }
        Some("count") => count(),
        _ => panic!("agree, time or count"),
    }
}
