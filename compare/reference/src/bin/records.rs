//! Writes the table of records that the gate runs: `records FOLDER` makes FOLDER/data/records.txt and FOLDER/stdout.
//!
//! A row of the table is `name=`, `record=`, `call=`, the call's own lines as in a replay file, `room=` (0 where the call takes no answer
//! bytes). What must be printed for it is one line: name, call, room, and `ok` or the refusal in two hex digits.

use reference::boundary::{run, Call, ENDED_BASE, REFUSAL_BASE};
use reference::damage::{self, Sample};
use reference::primitives::sha256;
use reference::record::encode;
use reference::tag::{request_tag, ringable, Sound, Unit, ROOM, SLOTS};
use std::collections::BTreeSet;

struct Table {
    data: String,
    answers: String,
    seen: BTreeSet<String>,
}

fn hex(bytes: &[u8]) -> String {
    bytes.iter().map(|b| format!("{b:02x}")).collect()
}

/// The lines of a call's arguments.
fn arguments(call: &Call) -> String {
    match call {
        Call::New(..) => unreachable!(),
        Call::Read(nonce) => format!("nonce={}\n", hex(nonce)),
        Call::Write(data, reach) => format!("data={}\nreach={reach:02x}\n", hex(data)),
        Call::Elapsed(tenths) => format!("tenths={tenths}\n"),
        Call::Pairing(on) => format!("on={on}\n"),
        Call::Battery(level) => format!("level={level}\n"),
        Call::AccountKey(key) => format!("bytes={}\n", hex(key)),
        Call::Button | Call::Disconnect | Call::Frame | Call::Sleep => String::new(),
    }
}

/// What the reference answers, as the table has it.
fn answer(record: &[u8], call: &Call, room: usize) -> String {
    let code = run(call, &mut record.to_vec(), &mut vec![0; room]) % ENDED_BASE;
    if code < REFUSAL_BASE { "ok".into() } else { format!("{:02x}", code - REFUSAL_BASE) }
}

impl Table {
    fn row(&mut self, name: &str, record: &[u8], call: &Call, room: usize, expect: Option<&str>) {
        let room = if call.answers() { room } else { 0 };
        let found = answer(record, call, room);
        assert!(expect.is_none_or(|code| code == found), "{name}: {found}, expected {expect:?}");
        let head = format!("{name} {} {room}", call.name());
        assert!(self.seen.insert(head.clone()), "{head} twice");
        self.data += &format!("name={name}\nrecord={}\ncall={}\n{}room={room}\n", hex(record), call.name(), arguments(call));
        self.answers += &format!("{head} {found}\n");
    }
}

fn first_eight(parts: &[&[u8]]) -> [u8; 8] {
    sha256(&parts.concat())[..8].try_into().unwrap()
}

/// A write with a right tag for the unit's last nonce, and everything in reach.
fn signed(unit: &Unit, key: &[u8], id: u8, data: &[u8]) -> Call {
    let length = 8 + data.len() as u8;
    let tag = request_tag(key, &unit.nonces[0], id, length, data);
    Call::Write([&[id, length][..], &tag, data].concat(), ringable(unit.components))
}

/// The same write with another reach.
fn reaching(call: Call, reach: u32) -> Call {
    match call {
        Call::Write(data, _) => Call::Write(data, reach),
        other => other,
    }
}

/// The right write of each ID for a unit that holds what it needs.
fn right_write(unit: &Unit, id: u8) -> Call {
    let sub = |last: u8| first_eight(&[&unit.identity, &[last]]);
    let proof = first_eight(&[&unit.identity, &unit.nonces[0]]);
    let owner = unit.keys[unit.owner as usize];
    match id {
        0x00 | 0x01 => signed(unit, &unit.keys[1], id, &[]),
        0x02 => signed(unit, &owner, id, &[&[0x2b; 32][..], &proof].concat()),
        0x03 => signed(unit, &owner, id, &proof),
        0x04 => signed(unit, &sub(1), id, &[]),
        0x05 => signed(unit, &sub(2), id, &[0x01, 0x00, 0x09, 0x02]),
        0x06 => signed(unit, &sub(2), id, &[]),
        0x07 => signed(unit, &sub(3), id, &[0x01]),
        _ => signed(unit, &sub(3), id, &proof),
    }
}

/// A call of each kind that serves on any unit that permits it.
fn good_calls(unit: &Unit) -> Vec<Call> {
    let write = if unit.has_identity { right_write(unit, 0x06) } else { signed(unit, &unit.keys[0], 0x01, &[]) };
    vec![
        Call::Read(vec![0x77; 8]),
        write,
        Call::Button,
        Call::Elapsed(1),
        Call::Disconnect,
        Call::Pairing(1),
        Call::Battery(2),
        Call::AccountKey(unit.keys[0].to_vec()),
        Call::Frame,
        Call::Sleep,
    ]
}

/// Each sample with one call, the calls in turn: one that serves on what the sample was made from.
fn sample_rows(table: &mut Table, samples: &[Sample]) {
    let mut turn = 0;
    for sample in samples {
        let calls = good_calls(&sample.base);
        let sound = encode(&sample.base);
        while answer(&sound, &calls[turn % calls.len()], ROOM) != "ok" {
            turn += 1;
        }
        let expect = if sample.broken { "02" } else { "ok" };
        table.row(&sample.name, &sample.bytes, &calls[turn % calls.len()], ROOM, Some(expect));
        turn += 1;
    }
}

/// Calls with arguments that they refuse: what is wrong, the call, the refusal.
fn bad_calls(unit: &Unit) -> Vec<(&'static str, Call, &'static str)> {
    vec![
        ("nonce-of-7-bytes", Call::Read(vec![0x77; 7]), "03"),
        ("nonce-issued-last", Call::Read(unit.nonces[0].to_vec()), "03"),
        ("nonce-issued-sixteenth-back", Call::Read(unit.nonces[15].to_vec()), "03"),
        ("empty-write", Call::Write(vec![], 7), "81"),
        ("tag-of-zeros", Call::Write([&[0x01, 0x08][..], &[0; 8]].concat(), 7), "80"),
        ("reach-outside", reaching(right_write(unit, 0x06), 0x08), "01"),
        ("reach-all-bits", reaching(right_write(unit, 0x05), 0xff), "01"),
        ("reach-outside-with-an-empty-write", Call::Write(vec![], 0x80), "01"),
        ("level-4", Call::Battery(4), "01"),
        ("level-256", Call::Battery(256), "01"),
        ("key-of-15-bytes", Call::AccountKey(vec![0xa1; 15]), "04"),
        ("key-of-17-bytes", Call::AccountKey(vec![0xa1; 17]), "04"),
    ]
}

/// Each call over a right and a broken record, with enough room and with too little, with arguments that it takes and that it refuses.
fn call_rows(table: &mut Table) {
    let unit = damage::full();
    let mut other = unit.clone();
    other.tenth = 10;
    let (right, broken) = (encode(&unit), encode(&other));
    for call in good_calls(&unit) {
        table.row("right", &right, &call, ROOM, Some("ok"));
        table.row("broken", &broken, &call, ROOM, Some("02"));
        if call.answers() {
            table.row("right", &right, &call, ROOM - 1, Some("06"));
            table.row("broken", &broken, &call, ROOM - 1, Some("06"));
        }
    }
    for (name, call, refusal) in bad_calls(&unit) {
        table.row(name, &right, &call, ROOM, Some(refusal));
        table.row(&format!("{name}-over-a-broken-record"), &broken, &call, ROOM, Some("02"));
        if call.answers() {
            table.row(name, &right, &call, ROOM - 1, Some("06"));
        }
    }
    let fresh = encode(&damage::fresh());
    table.row("fresh", &fresh, &Call::Frame, ROOM, Some("05"));
    table.row("fresh", &fresh, &Call::Frame, ROOM - 1, Some("06"));
    let waits = encode(&damage::waits());
    table.row("waiting-key-only", &waits, &Call::Frame, ROOM, Some("05"));
    let mut broken_fresh = damage::fresh();
    broken_fresh.tenth = 10;
    table.row("fresh-and-broken", &encode(&broken_fresh), &Call::Frame, ROOM, Some("02"));
    let crowded = encode(&damage::guests(SLOTS));
    table.row("one-key-more-than-there-is-room", &crowded, &Call::AccountKey(vec![0xee; 16]), ROOM, Some("ok"));
    table.row("key-of-15-bytes-beside-ten", &crowded, &Call::AccountKey(vec![0xa1; 15]), ROOM, Some("04"));
}

/// Right writes of each ID, and refused ones, over well formed records; the spent nonce and the missing consent are in the record.
fn write_rows(table: &mut Table) {
    let unit = damage::full();
    for id in 0x00..=0x08 {
        table.row(&format!("right-write-{id:02x}"), &encode(&unit), &right_write(&unit, id), ROOM, Some("ok"));
    }
    let mut spent = unit.clone();
    spent.live = false;
    table.row("nonce-is-spent", &encode(&spent), &right_write(&spent, 0x06), ROOM, Some("80"));
    table.row("nonce-is-spent-and-reach-outside", &encode(&spent), &reaching(right_write(&spent, 0x06), 0x10), ROOM, Some("01"));
    table.row("nothing-in-reach", &encode(&unit), &reaching(right_write(&unit, 0x05), 0), ROOM, Some("ok"));
    for (components, inside, outside) in [(0, 0x00, 0x01), (1, 0x01, 0x02), (2, 0x03, 0x04), (3, 0x07, 0x08)] {
        let mut parts = damage::quiet();
        parts.components = components;
        let write = right_write(&parts, 0x06);
        table.row(&format!("reach-{inside:02x}-with-{components}"), &encode(&parts), &reaching(write.clone(), inside), ROOM, Some("ok"));
        table.row(&format!("reach-{outside:02x}-with-{components}"), &encode(&parts), &reaching(write, outside), ROOM, Some("01"));
    }
    let mut no_consent = unit.clone();
    no_consent.consent = 0;
    no_consent.pairing = false;
    table.row("no-consent", &encode(&no_consent), &right_write(&no_consent, 0x04), ROOM, Some("82"));
    no_consent.consent = 1;
    table.row("a-tenth-of-consent", &encode(&no_consent), &right_write(&no_consent, 0x04), ROOM, Some("ok"));
    let mut last_window = unit.clone();
    last_window.seconds = u32::MAX;
    table.row("last-window", &encode(&last_window), &Call::Frame, ROOM, Some("ok"));
    table.row("last-window", &encode(&last_window), &right_write(&last_window, 0x01), ROOM, Some("ok"));
    let mut no_nonce = unit;
    no_nonce.live = false;
    no_nonce.nonce_count = 0;
    no_nonce.nonces = [[0; 8]; 16];
    no_nonce.sound = Sound::Ringing { mask: 1, volume: 0, left: 1 };
    table.row("ring-without-last-nonce-ends", &encode(&no_nonce), &Call::Elapsed(1), ROOM, Some("ok"));
    table.row("no-nonce-at-all", &encode(&no_nonce), &right_write(&no_nonce, 0x06), ROOM, Some("80"));
    table.row("no-nonce-is-not-one-of-zeros", &encode(&no_nonce), &Call::Read(vec![0; 8]), ROOM, Some("ok"));
}

fn main() {
    let folder = std::env::args().nth(1).expect("the folder to write into");
    let mut table = Table { data: String::new(), answers: String::new(), seen: BTreeSet::new() };
    sample_rows(&mut table, &damage::samples());
    call_rows(&mut table);
    write_rows(&mut table);
    std::fs::create_dir_all(format!("{folder}/data")).unwrap();
    std::fs::write(format!("{folder}/data/records.txt"), &table.data).unwrap();
    std::fs::write(format!("{folder}/stdout"), &table.answers).unwrap();
    println!("{} rows", table.answers.lines().count());
}
