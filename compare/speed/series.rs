//! The programs that are measured, and what they are run on.
use crate::library;
use crate::plain::forms::{Best, ByteBox, Form};
use crate::plain::tag::ROOM;
use crate::plain::{self, record};
use crate::session::{self, Pair, OWNER};

/// What a pair of calls gave.
#[derive(Clone, PartialEq, Debug)]
pub struct Slot {
    pub codes: [u64; 2],
    read: [u8; ROOM],
    write: [u8; ROOM],
}

impl Default for Slot {
    fn default() -> Slot {
        Slot { codes: [0; 2], read: [0; ROOM], write: [0; ROOM] }
    }
}

impl Slot {
    pub fn served(&self) -> bool {
        self.codes[1] < 256
    }
}

/// Runs pairs, each from the unit of the same record, so that a key that a pair uses is in its old place again for the next; gives the record after the last.
pub struct Program {
    pub name: &'static str,
    pub run: fn(&[u8], &[Pair], &mut [Slot]) -> Vec<u8>,
}

fn calls<U: Clone>(
    start: &U,
    pairs: &[Pair],
    slots: &mut [Slot],
    read: impl Fn(&mut U, &[u8], &mut [u8]) -> u64,
    write: impl Fn(&mut U, &[u8], u32, &mut [u8]) -> u64,
) -> U {
    let mut unit = start.clone();
    for (pair, slot) in pairs.iter().zip(slots) {
        unit.clone_from(start);
        slot.codes[0] = read(&mut unit, &pair.nonce, &mut slot.read);
        slot.codes[1] = write(&mut unit, &pair.request, pair.reach, &mut slot.write);
    }
    unit
}

type Read = fn(&mut [u8], &[u8], &mut [u8]) -> u64;
type Write = fn(&mut [u8], &[u8], u32, &mut [u8]) -> u64;

fn on_record(start: &[u8], pairs: &[Pair], slots: &mut [Slot], read: Read, write: Write) -> Vec<u8> {
    calls(&start.to_vec(), pairs, slots, |u, n, a| read(u, n, a), |u, w, reach, a| write(u, w, reach, a))
}

fn on_struct<F: Form>(start: &[u8], pairs: &[Pair], slots: &mut [Slot]) -> Vec<u8> {
    let unit = calls(&record::decode(start).unwrap(), pairs, slots, plain::read, plain::write::<F>);
    let mut bytes = vec![0; record::SIZE];
    record::encode(&unit, &mut bytes);
    bytes
}

pub const PROGRAMS: [Program; 5] = [
    Program { name: "ours", run: |u, p, s| on_record(u, p, s, library::read, library::write) },
    Program { name: "byte box, record", run: |u, p, s| on_record(u, p, s, plain::read_on_record, plain::write_on_record::<ByteBox>) },
    Program { name: "byte box, struct", run: on_struct::<ByteBox> },
    Program { name: "best, record", run: |u, p, s| on_record(u, p, s, plain::read_on_record, plain::write_on_record::<Best>) },
    Program { name: "best, struct", run: on_struct::<Best> },
];

/// FNV-1a over numbers, answer bytes and records.
pub struct Checksum(u64);

impl Checksum {
    pub fn new() -> Checksum {
        Checksum(0xcbf29ce484222325)
    }

    pub fn add(&mut self, bytes: &[u8]) {
        bytes.iter().for_each(|b| self.0 = (self.0 ^ *b as u64).wrapping_mul(0x100000001b3));
    }

    pub fn slot(&mut self, slot: &Slot) {
        slot.codes.iter().for_each(|code| self.add(&code.to_be_bytes()));
        self.add(&slot.read);
        self.add(&slot.write);
    }

    pub fn text(&self) -> String {
        format!("{:016x}", self.0)
    }
}

/// What a program gives for all pairs, in one number.
pub fn checksum(program: &Program, start: &[u8], pairs: &[Pair], slots: &mut [Slot]) -> String {
    let last = (program.run)(start, pairs, slots);
    let mut sum = Checksum::new();
    slots.iter().for_each(|slot| sum.slot(slot));
    sum.add(&last);
    sum.text()
}

/// One pair after another on the same unit, by all programs: each must give the same numbers, answer bytes and record. The writes served, and the checksum.
pub fn agreed(start: &[u8], pairs: &[Pair], sum: &mut Checksum) -> usize {
    let (mut record, mut served) = (start.to_vec(), 0);
    for pair in pairs {
        let pair = std::slice::from_ref(pair);
        let mut slot = [Slot::default()];
        let after = (PROGRAMS[0].run)(&record, pair, &mut slot);
        for program in &PROGRAMS[1..] {
            let mut other = [Slot::default()];
            let same = (program.run)(&record, pair, &mut other) == after && other == slot;
            assert!(same, "{} answers differently: {pair:02x?} gives {other:02x?}, not {slot:02x?}, on {record:02x?}", program.name);
        }
        sum.slot(&slot[0]);
        sum.add(&after);
        served += slot[0].served() as usize;
        record = after;
    }
    served
}

/// Requests of every ID, every third of them damaged, for a unit with that ringable mask. 0x03 comes near the end: after it nothing is held.
pub fn mixed(keys: usize, whole: u8, count: u64) -> Vec<Pair> {
    let mut pairs: Vec<Pair> = (0..count).map(|n| one_of_all(keys, whole, n)).collect();
    pairs.push(Pair { reach: 0, ..session::pair(0x03, OWNER, count) });
    pairs.extend((count + 1..count + 20).map(|n| one_of_all(keys, whole, n)));
    pairs
}

/// The n-th of them, by numbers that n picks: ID, user, reach, and what is wrong with it. 0x01 is rarer than the others, since it works out an identifier.
fn one_of_all(keys: usize, whole: u8, n: u64) -> Pair {
    let mut rest = (n ^ (n + 7).wrapping_mul(0xd1342543de82ef95).rotate_left(31)).wrapping_mul(0x2545f4914f6cdd1d) >> 4;
    let mut pick = |below: usize| {
        let picked = rest % below as u64;
        rest /= below as u64;
        picked as usize
    };
    let id = [0, 0, 0, 1, 2, 2, 4, 4, 5, 5, 5, 5, 6, 7, 7, 8][pick(16)];
    let user = pick(keys);
    let mut pair = session::pair(id, if id < 2 { user } else { OWNER }, n);
    // Some or all parts in reach, or a bit that names no component
    pair.reach = [0, 1, 2, 4, 7, 7, 7, 7].map(|parts| parts & whole as u32)[pick(8)] | [0, 0, 0, 0, 0, 0, 0, 8][pick(8)];
    let (place, bit) = (pick(10), pick(8));
    match pick(24) {
        0 | 1 => pair.request[place] ^= 1 << bit,
        2 | 3 => *pair.request.last_mut().unwrap() ^= 0x80,
        4 => pair.request.truncate(place),
        // The nonce of an earlier read, up to one that is forgotten
        5 | 6 => pair.nonce = session::nonce(n.wrapping_sub(1 + 2 * place as u64)),
        7 => pair.request.push(0),
        8 if id == 0x02 => pair.request = session::signed(&session::key(OWNER), &pair.nonce, id, &[n as u8; 32]),
        8..=12 if id == 0x05 => pair.request = session::ring(&pair.nonce, RINGS[bit]),
        _ => (),
    }
    pair
}

/// All parts; stops; a timeout of 0, over 6,000 and 6,000; a volume over 3; a part that is none.
const RINGS: [[u8; 4]; 8] =
    [[0xff, 0, 9, 1], [0, 0, 0, 0], [0, 0xff, 0, 3], [1, 0, 0, 0], [1, 0x17, 0x71, 0], [1, 0x17, 0x70, 3], [1, 0, 1, 4], [8, 0, 1, 1]];

/// Calls whose work must not grow with a number of theirs: elapsed time with its tenths, a write of a wrong shape with its length.
pub fn growth(mut counted: impl FnMut(&str, &str, u64, &mut dyn FnMut())) {
    let (start, mut answer) = (session::measured(1), [0; ROOM]);
    let mut ringing = start.clone();
    let ring = session::pair(0x05, OWNER, 5999);
    library::read(&mut ringing, &ring.nonce, &mut answer);
    assert!(library::write(&mut ringing, &ring.request, ring.reach, &mut answer) == 14);
    for (name, unit) in [("elapsed, silent", &start), ("elapsed, ringing for 6,000 tenths", &ringing)] {
        for tenths in [0, 1, 9, 10, 599, 5999, 6000, 6001, 65_535, 1 << 20, 1 << 31, u32::MAX] {
            let mut u = unit.clone();
            counted(name, &tenths.to_string(), 1, &mut || {
                library::elapsed(&mut u, tenths, &mut answer);
            });
        }
    }
    for (name, id) in [("write of ID 0x05, wrong length", 0x05), ("write of ID 0x09", 0x09)] {
        for length in [0, 1, 2, 3, 10, 13, 15, 64, 257, 1024, 65_535, 1 << 20] {
            let mut u = start.clone();
            let mut request = vec![0; length];
            request.iter_mut().zip([id, 12]).for_each(|(byte, value)| *byte = value);
            counted(name, &length.to_string(), 1, &mut || {
                library::write(&mut u, &request, 7, &mut answer);
            });
        }
    }
}
