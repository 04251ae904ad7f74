//! Records for the table that the gate runs: each line of "What a unit holds" broken in each way, one at a time, and records that are odd
//! but well formed. Everything is said of the unit or of a field by its name; only `record` knows the bytes.

use crate::record::{encode, fields, SIZE, VERSION};
use crate::tag::{new_unit, Protection, Sound, Unit, NONCES, SLOTS};

/// A record: what is special about it, the well formed unit that it was made from, its bytes.
pub struct Sample {
    pub name: String,
    pub base: Unit,
    pub bytes: Vec<u8>,
    pub broken: bool,
}

pub fn fresh() -> Unit {
    new_unit(-20, 3, 1).unwrap()
}

/// Account keys held, no owner.
pub fn guests(count: usize) -> Unit {
    let mut unit = fresh();
    unit.key_count = count as u64;
    for place in 0..count {
        unit.keys[place] = [0xa1 + place as u8; 16];
    }
    unit
}

/// Three account keys, the last of them the owner; no identity key.
pub fn owned() -> Unit {
    let mut unit = guests(3);
    unit.has_owner = true;
    unit.owner = 2;
    unit
}

/// Everything that a silent unit can hold, at the upper end where there is one.
pub fn quiet() -> Unit {
    let mut unit = owned();
    unit.seconds = 5_000;
    unit.tenth = 9;
    unit.has_identity = true;
    unit.identity = [0x1d; 32];
    unit.has_waiting = true;
    unit.waiting = [0x3a; 32];
    unit.nonce_count = NONCES as u32;
    for place in 0..NONCES {
        unit.nonces[place] = [0xe0 + place as u8; 8];
    }
    unit.live = true;
    unit.protection = Protection::On { skip: true };
    unit.consent = 600;
    unit.pairing = true;
    unit.battery = 3;
    unit
}

/// The same, ringing as long and as loud as it can.
pub fn full() -> Unit {
    let mut unit = quiet();
    unit.sound = Sound::Ringing { mask: 5, volume: 3, left: 6_000 };
    unit.ring_nonce = [0x0f; 8];
    unit
}

/// Ringing with so many components.
fn ringing(components: u32, mask: u32) -> Unit {
    let mut unit = full();
    unit.components = components;
    unit.sound = Sound::Ringing { mask, volume: 1, left: 1 };
    unit
}

/// The samples being gathered.
struct Samples(Vec<Sample>);

impl Samples {
    /// A unit that a change breaks.
    fn broken(&mut self, name: &str, base: Unit, change: impl Fn(&mut Unit)) {
        let mut unit = base.clone();
        change(&mut unit);
        assert!(base.well_formed() && !unit.well_formed(), "{name}");
        self.0.push(Sample { name: name.into(), base, bytes: encode(&unit), broken: true });
    }

    /// A unit that stays well formed.
    fn right(&mut self, name: &str, base: Unit, change: impl Fn(&mut Unit)) {
        let mut unit = base;
        change(&mut unit);
        assert!(unit.well_formed(), "{name}");
        self.0.push(Sample { name: name.into(), bytes: encode(&unit), base: unit, broken: false });
    }

    /// A field with other bytes in it.
    fn field(&mut self, base: Unit, field: &str, value: &[u8]) {
        let digits: String = value.iter().map(|b| format!("{b:02x}")).collect();
        self.named_field(&format!("{field}-{digits}"), base, field, value);
    }

    fn named_field(&mut self, name: &str, base: Unit, field: &str, value: &[u8]) {
        let mut all = fields(&base);
        let found = all.iter_mut().find(|(name, _)| *name == field).unwrap();
        assert!(found.1.len() == value.len() && found.1 != value, "{name}");
        found.1 = value.to_vec();
        let bytes = all.into_iter().flat_map(|(_, bytes)| bytes).collect();
        self.0.push(Sample { name: name.into(), base, bytes, broken: true });
    }

    /// Bytes that are no record.
    fn bytes(&mut self, name: &str, bytes: Vec<u8>) {
        self.0.push(Sample { name: name.into(), base: full(), bytes, broken: true });
    }
}

/// The record as a whole: its length and its version.
fn whole(s: &mut Samples) {
    let bytes = encode(&full());
    s.bytes("no-bytes", vec![]);
    s.bytes("a-byte-too-few", bytes[..SIZE - 1].to_vec());
    s.bytes("a-byte-too-many", [&bytes[..], &[0]].concat());
    s.bytes("zeroed-memory", vec![0; SIZE]);
    s.bytes("erased-flash", vec![0xff; SIZE]);
    for version in [VERSION - 1, VERSION + 1] {
        s.field(full(), "version", &[version]);
    }
}

/// "Settings: calibrated power, a whole number from -100 to 20; components 0 to 3; volume selectable, 0 or 1." "a tenth 0 to 9"
fn settings(s: &mut Samples) {
    for power in [-101, 21, 236, -256, i32::MIN, i32::MAX] {
        s.broken(&format!("power-{power}"), quiet(), |u| u.power = power);
    }
    for power in [-100, -1, 0, 20] {
        s.right(&format!("power-{power}"), quiet(), |u| u.power = power);
    }
    for n in [4, 255] {
        s.broken(&format!("components-{n}"), quiet(), |u| u.components = n);
    }
    for n in 0..=3 {
        s.right(&format!("components-{n}"), quiet(), |u| u.components = n);
    }
    for n in [2, 3, 255] {
        s.broken(&format!("selectable-{n}"), quiet(), |u| u.selectable = n);
    }
    s.right("selectable-0", quiet(), |u| u.selectable = 0);
    for n in [10, 255] {
        s.broken(&format!("tenth-{n}"), quiet(), |u| u.tenth = n);
    }
    s.right("tenth-0", quiet(), |u| u.tenth = 0);
    s.right("seconds-at-the-end", fresh(), |u| u.seconds = u32::MAX);
}

/// Up to 10 account keys of 16 bytes, "no two equal"; "room for absent things not zero"
fn account_keys(s: &mut Samples) {
    let most = SLOTS as u64;
    for count in [1 << 8, 1 << 32, 1 << 63] {
        s.broken(&format!("key-count-{count}-beyond-none"), fresh(), |u| u.key_count = count);
        s.broken(&format!("key-count-{count}-beyond-all"), guests(SLOTS), |u| u.key_count += count);
    }
    for count in [most + 1, 200, u64::MAX] {
        s.broken(&format!("key-count-{count}"), guests(SLOTS), |u| u.key_count = count);
    }
    for (one, other) in [(0, 1), (0, 2), (0, SLOTS - 1), (1, SLOTS - 2), (SLOTS - 2, SLOTS - 1)] {
        s.broken(&format!("keys-{one}-and-{other}-equal"), guests(SLOTS), |u| u.keys[other] = u.keys[one]);
    }
    s.broken("two-keys-of-zeros", fresh(), |u| u.key_count = 2);
    for count in [0, 2, SLOTS - 1] {
        s.broken(&format!("key-{count}-not-counted-first-byte"), guests(count), |u| u.keys[count][0] = 1);
        s.broken(&format!("key-{count}-not-counted-last-byte"), guests(count), |u| u.keys[count][15] = 1);
        s.broken(&format!("last-room-not-zero-beside-{count}"), guests(count), |u| u.keys[SLOTS - 1][15] = 0x80);
    }
    s.broken("one-key-less-counted", guests(SLOTS), |u| u.key_count -= 1);
    s.right("a-key-of-zeros", fresh(), |u| u.key_count = 1);
    s.right("a-key-of-zeros-behind-others", guests(2), |u| u.key_count = 3);
    s.right("as-many-keys-as-there-is-room", guests(SLOTS), |_| ());
    s.right("keys-that-differ-in-the-first-byte", guests(2), |u| { u.keys[1] = u.keys[0]; u.keys[1][0] ^= 1 });
    s.right("keys-that-differ-in-the-last-byte", guests(2), |u| { u.keys[1] = u.keys[0]; u.keys[1][15] ^= 1 });
}

/// "perhaps an owner among them"; "an owner that isn't held"
fn owner(s: &mut Samples) {
    for place in [3, SLOTS as u64, (1 << 8) + 2, 1 << 32, 1 << 63, u64::MAX] {
        s.broken(&format!("owner-at-{place}"), owned(), |u| u.owner = place);
    }
    s.broken("owner-without-keys", fresh(), |u| u.has_owner = true);
    s.broken("owner-behind-the-last-key", guests(SLOTS), |u| { u.has_owner = true; u.owner = u.key_count });
    s.field(guests(3), "owner-place", &1u64.to_be_bytes());
    s.field(guests(3), "owner-place", &(1u64 << 56).to_be_bytes());
    s.right("owner-at-the-first-place", owned(), |u| u.owner = 0);
    s.right("owner-at-the-last-place", guests(SLOTS), |u| { u.has_owner = true; u.owner = u.key_count - 1 });
    s.right("no-owner", guests(3), |_| ());
}

/// "perhaps a 32-byte identity key (then there is an owner)"
fn identity_key(s: &mut Samples) {
    s.broken("identity-key-without-owner", guests(3), |u| { u.has_identity = true; u.identity = [1; 32] });
    s.broken("identity-key-of-zeros-without-owner", guests(3), |u| u.has_identity = true);
    s.broken("no-identity-key-first-byte", owned(), |u| u.identity[0] = 1);
    s.broken("no-identity-key-last-byte", owned(), |u| u.identity[31] = 1);
    s.right("identity-key-of-zeros", quiet(), |u| u.identity = [0; 32]);
    s.right("owner-without-identity-key", owned(), |_| ());
}

/// "A waiting key without an owner isn't well formed."
fn waiting_key(s: &mut Samples) {
    s.broken("waiting-key-without-owner", guests(3), |u| { u.has_waiting = true; u.waiting = [1; 32] });
    s.broken("waiting-key-of-zeros-without-owner", guests(3), |u| u.has_waiting = true);
    s.broken("no-waiting-key-first-byte", owned(), |u| u.waiting[0] = 1);
    s.broken("no-waiting-key-last-byte", owned(), |u| u.waiting[31] = 1);
    s.right("waiting-key-without-key-in-force", owned(), |u| { u.has_waiting = true; u.waiting = [1; 32] });
    s.right("waiting-key-of-zeros", quiet(), |u| u.waiting = [0; 32]);
    s.right("waiting-key-is-the-one-in-force", full(), |u| u.waiting = u.identity);
    s.right("no-waiting-key", full(), |u| { u.has_waiting = false; u.waiting = [0; 32] });
    let only_waiting = Sound::Ringing { mask: 1, volume: 0, left: 1 };
    s.broken("ringing-with-a-waiting-key-only", waits(), |u| u.sound = only_waiting);
    s.broken("protection-with-a-waiting-key-only", waits(), |u| u.protection = Protection::On { skip: false });
}

/// An owner and a waiting key, but no key in force.
pub fn waits() -> Unit {
    let mut unit = owned();
    unit.has_waiting = true;
    unit.waiting = [0x3a; 32];
    unit
}

/// So many nonces issued.
fn issued(count: usize) -> Unit {
    let mut unit = fresh();
    unit.nonce_count = count as u32;
    unit.nonces[..count].copy_from_slice(&quiet().nonces[..count]);
    unit
}

/// "A well-formed record holds up to 16, all distinct; a fresh one none." "live without a nonce"
fn nonce(s: &mut Samples) {
    for count in [17, 255] {
        s.broken(&format!("nonce-count-{count}"), issued(NONCES), |u| u.nonce_count = count);
    }
    for (one, other) in [(0, 1), (0, 2), (0, 15), (1, 14), (7, 8), (14, 15)] {
        s.broken(&format!("nonces-{one}-and-{other}-equal"), quiet(), |u| u.nonces[other] = u.nonces[one]);
    }
    s.broken("two-nonces-of-zeros", fresh(), |u| u.nonce_count = 2);
    for count in [0, 1, 15] {
        s.broken(&format!("nonce-{count}-not-counted-first-byte"), issued(count), |u| u.nonces[count][0] = 1);
        s.broken(&format!("nonce-{count}-not-counted-last-byte"), issued(count), |u| u.nonces[count][7] = 1);
    }
    s.broken("last-nonce-room-not-zero", issued(2), |u| u.nonces[15][7] = 0x80);
    s.broken("one-nonce-less-counted", issued(16), |u| u.nonce_count = 15);
    s.broken("live-without-nonce", fresh(), |u| u.live = true);
    s.right("nonce-of-zeros", fresh(), |u| u.nonce_count = 1);
    s.right("live-nonce-of-zeros", fresh(), |u| { u.nonce_count = 1; u.live = true });
    s.right("nonce-of-zeros-behind-others", issued(2), |u| u.nonce_count = 3);
    s.right("sixteen-nonces", issued(16), |u| u.live = true);
    s.right("nonces-that-differ-in-the-first-byte", issued(2), |u| { u.nonces[1] = u.nonces[0]; u.nonces[1][0] ^= 1 });
    s.right("nonces-that-differ-in-the-last-byte", issued(2), |u| { u.nonces[1] = u.nonces[0]; u.nonces[1][7] ^= 1 });
    s.right("nonce-spent", quiet(), |u| u.live = false);
}

/// "Sound: silent, or ringing with a mask, a volume, tenths left (1 to 6,000) and the nonce of the accepted ring"
fn sound(s: &mut Samples) {
    s.broken("silent-with-ring-nonce-first-byte", quiet(), |u| u.ring_nonce[0] = 1);
    s.broken("silent-with-ring-nonce-last-byte", quiet(), |u| u.ring_nonce[7] = 1);
    s.named_field("silent-with-a-mask", quiet(), "sound-mask", &[1]);
    s.named_field("silent-with-a-volume", quiet(), "sound-volume", &[1]);
    s.named_field("silent-with-one-tenth-left", quiet(), "sound-left", &[0, 1]);
    s.named_field("silent-with-256-tenths-left", quiet(), "sound-left", &[1, 0]);
    let no_key = Sound::Ringing { mask: 1, volume: 0, left: 1 };
    s.broken("ringing-without-identity-key", owned(), |u| u.sound = no_key);
    s.broken("ringing-on-a-fresh-unit", fresh(), |u| u.sound = no_key);
    for (components, within, outside) in [(1, 1, 2), (1, 1, 3), (2, 3, 4), (2, 3, 7), (3, 7, 8), (3, 7, 0x87), (3, 7, 0xff), (3, 7, 0)] {
        let name = format!("mask-{outside:02x}-with-{components}");
        s.broken(&name, ringing(components, within), |u| u.sound = Sound::Ringing { mask: outside, volume: 1, left: 1 });
    }
    s.broken("mask-01-with-0", quiet_without_parts(), |u| u.sound = Sound::Ringing { mask: 1, volume: 0, left: 1 });
    for (components, mask) in [(1, 1), (2, 2), (2, 3), (3, 4), (3, 7)] {
        s.right(&format!("mask-{mask:02x}-with-{components}"), ringing(components, mask), |_| ());
    }
    for volume in [4, 255] {
        s.broken(&format!("volume-{volume}"), full(), |u| u.sound = Sound::Ringing { mask: 5, volume, left: 1 });
    }
    for volume in [1, 3, 4] {
        let name = format!("volume-{volume}-not-selectable");
        s.broken(&name, not_selectable(), |u| u.sound = Sound::Ringing { mask: 5, volume, left: 1 });
    }
    s.right("volume-0-not-selectable", not_selectable(), |_| ());
    s.right("volume-0", full(), |u| u.sound = Sound::Ringing { mask: 5, volume: 0, left: 6_000 });
    for left in [0, 6_001, 6_256, 65_535] {
        s.broken(&format!("{left}-tenths-left"), full(), |u| u.sound = Sound::Ringing { mask: 5, volume: 3, left });
    }
    s.right("6000-tenths-left", full(), |_| ());
    s.right("1-tenth-left", full(), |u| u.sound = Sound::Ringing { mask: 5, volume: 3, left: 1 });
    s.right("ringing-without-a-last-nonce", full(), |u| { u.nonce_count = 0; u.live = false; u.nonces = [[0; 8]; NONCES] });
    s.right("ring-nonce-of-zeros", full(), |u| u.ring_nonce = [0; 8]);
    s.right("ring-nonce-is-the-last", full(), |u| u.ring_nonce = u.nonces[0]);
    s.right("ring-nonce-is-the-oldest", full(), |u| u.ring_nonce = u.nonces[15]);
}

fn quiet_without_parts() -> Unit {
    let mut unit = quiet();
    unit.components = 0;
    unit
}

fn not_selectable() -> Unit {
    let mut unit = full();
    unit.selectable = 0;
    unit.sound = Sound::Ringing { mask: 5, volume: 0, left: 1 };
    unit
}

/// "Protection: off, or on with the skip flag on or off; on only with an identity key." "Consent tenths left, 0 to 600; pairing flag;
/// battery 0 to 3"
fn protection_and_the_rest(s: &mut Samples) {
    for skip in [false, true] {
        let name = format!("protection-without-identity-key-{}", if skip { "skip" } else { "no-skip" });
        s.broken(&name, owned(), |u| u.protection = Protection::On { skip });
        s.right(if skip { "protection-with-skip" } else { "protection-without-skip" }, full(), |u| u.protection = Protection::On { skip });
    }
    for kind in [3, 4, 255] {
        s.field(full(), "protection", &[kind]);
    }
    for consent in [601, 856, 65_535] {
        s.broken(&format!("consent-{consent}"), full(), |u| u.consent = consent);
    }
    s.broken("consent-601-without-keys", fresh(), |u| u.consent = 601);
    s.right("consent-600-without-keys", fresh(), |u| u.consent = 600);
    s.right("consent-0", full(), |u| u.consent = 0);
    s.right("pairing-without-keys", fresh(), |u| u.pairing = true);
    for level in [4, 255] {
        s.broken(&format!("battery-{level}"), full(), |u| u.battery = level);
    }
    for level in 0..=3 {
        s.right(&format!("battery-{level}"), full(), |u| u.battery = level);
    }
}

/// Flags that are neither 0 nor 1: where a thing is held, what any odd and what any non-zero number might pass for; where it isn't, what any
/// even number might.
fn flags(s: &mut Samples) {
    for field in ["nonces-live", "owner-kind", "identity-held", "waiting-held", "sound-kind", "pairing"] {
        s.field(full(), field, &[3]);
        s.field(full(), field, &[255]);
        s.field(fresh(), field, &[2]);
    }
}

pub fn samples() -> Vec<Sample> {
    let mut s = Samples(vec![]);
    for part in [whole, settings, account_keys, owner, identity_key, waiting_key, nonce, sound, protection_and_the_rest, flags] {
        part(&mut s);
    }
    s.0
}
