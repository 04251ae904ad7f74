//! A host in Rust: provisions a unit, rings it, lets the ring time out, rings with a part and with all parts out of reach, stops one with the button, recovers the key, saves and reloads
//! the record, and reads its own frame. It plays the phone too, which makes the requests with the library's own primitives.
use std::fs;

const RECORD_SIZE: usize = 403;
const ANSWER_ROOM: usize = 42;
const IDENTITY_HELD_AT: usize = 319;
const WAITING_HELD_AT: usize = 352;
const SOUND_KIND_AT: usize = 385;
const PROTECTION_AT: usize = 398;
const BATTERY_AT: usize = 402;
const CLOCK_SECONDS_AT: usize = 7;
const PARTS_SIZE: usize = 23;

// The declarations of include/tag.h: a slice passes as its pointer and its length.
extern "C" {
    fn tag_new(record: *mut u8, n: u64, power: i32, components: u32, selectable: u32) -> u64;
    fn tag_read(record: *mut u8, n: u64, nonce: *const u8, m: u64, answer: *mut u8, room: u64) -> u64;
    fn tag_write(record: *mut u8, n: u64, request: *const u8, m: u64, reach: u32, answer: *mut u8, room: u64) -> u64;
    fn tag_button(record: *mut u8, n: u64, answer: *mut u8, room: u64) -> u64;
    fn tag_elapsed(record: *mut u8, n: u64, tenths: u32, answer: *mut u8, room: u64) -> u64;
    fn tag_sleep(record: *const u8, n: u64) -> u64;
    fn tag_account_key(record: *mut u8, n: u64, key: *const u8, m: u64) -> u64;
    fn tag_disconnect(record: *mut u8, n: u64) -> u64;
    fn tag_frame(record: *mut u8, n: u64, answer: *mut u8, room: u64) -> u64;
    fn tag_frame_read(frame: *const u8, n: u64, parts: *mut u8, room: u64) -> u64;
    fn tag_battery(record: *mut u8, n: u64, level: u32) -> u64;
    fn tag_sha256(message: *const u8, n: u64, answer: *mut u8, room: u64) -> u64;
    fn tag_hmac_sha256(key: *const u8, n: u64, message: *const u8, m: u64, answer: *mut u8, room: u64) -> u64;
    fn tag_aes128_encrypt(key: *const u8, n: u64, block: *const u8, m: u64, answer: *mut u8, room: u64) -> u64;
    fn tag_aes128_decrypt(key: *const u8, n: u64, block: *const u8, m: u64, answer: *mut u8, room: u64) -> u64;
}

const ACCOUNT_KEY: [u8; 16] = [4, 1, 2, 3, 4, 5, 6, 7, 8, 9, 10, 11, 12, 13, 14, 15];
const IDENTITY: [u8; 32] = [7, 7, 7, 7, 9, 9, 9, 9, 1, 2, 3, 4, 5, 6, 7, 8, 8, 7, 6, 5, 4, 3, 2, 1, 9, 9, 9, 9, 7, 7, 7, 7];

/// What a call gave: the bytes written and the ending tenth, or a refusal.
struct Given {
    bytes: usize,
    ended: u64,
}

fn given(number: u64) -> Result<Given, u64> {
    match number % 65536 {
        code @ 256.. => Err(code - 256),
        bytes => Ok(Given { bytes: bytes as usize, ended: number / 65536 }),
    }
}

struct Host {
    record: [u8; RECORD_SIZE],
    answer: [u8; ANSWER_ROOM],
    nonce: u64,
    /// The parts that can be reached, which a real host asks its radio for.
    reach: u32,
    /// The frame on the air, and what it was made from.
    frame: Vec<u8>,
    made_from: Vec<u8>,
}

impl Host {
    /// A call that takes the record alone.
    fn complete(&mut self, call: impl FnOnce(*mut u8, u64) -> u64) -> Result<Given, u64> {
        given(call(self.record.as_mut_ptr(), RECORD_SIZE as u64))
    }

    /// A call that takes the record and answer bytes.
    fn ask(&mut self, call: impl FnOnce(*mut u8, u64, *mut u8, u64) -> u64) -> Result<Given, u64> {
        given(call(self.record.as_mut_ptr(), RECORD_SIZE as u64, self.answer.as_mut_ptr(), ANSWER_ROOM as u64))
    }

    /// The phone: a request with its tag under a key, on a nonce just issued.
    fn request(&mut self, id: u8, key: &[u8], data: &[u8]) -> Result<Given, u64> {
        self.nonce += 1; // A real host takes random bytes: these only differ from each other.
        let nonce = self.nonce.to_be_bytes();
        self.ask(|u, n, a, room| unsafe { tag_read(u, n, nonce.as_ptr(), 8, a, room) })?;
        let size = 8 + data.len() as u8;
        let covered = [&[1], &nonce[..], &[id, size], data].concat();
        let mut tag = [0; 32];
        given(unsafe { tag_hmac_sha256(key.as_ptr(), key.len() as u64, covered.as_ptr(), covered.len() as u64, tag.as_mut_ptr(), 32) })?;
        let write = [&[id, size], &tag[..8], data].concat();
        let reach = self.reach;
        self.ask(|u, n, a, room| unsafe { tag_write(u, n, write.as_ptr(), write.len() as u64, reach, a, room) })
    }

    /// A frame takes a multiple on the curve: it is made anew only when the window, the key in force, protection or the battery level has changed.
    fn advertise(&mut self) -> Result<(), u64> {
        let mut now = self.record[CLOCK_SECONDS_AT..CLOCK_SECONDS_AT + 4].to_vec();
        now[2] &= 0xFC; // The window: the seconds with the low 10 bits cleared.
        now[3] = 0;
        now.extend_from_slice(&self.record[IDENTITY_HELD_AT..IDENTITY_HELD_AT + 33]);
        now.extend([self.record[PROTECTION_AT], self.record[BATTERY_AT]]);
        if now == self.made_from {
            println!("the frame on the air stays");
            return Ok(());
        }
        let bytes = self.ask(|u, n, a, room| unsafe { tag_frame(u, n, a, room) })?.bytes;
        self.frame = self.answer[..bytes].to_vec();
        self.made_from = now;
        println!("a new frame of {bytes} bytes");
        Ok(())
    }

    /// Sleeps until time does something.
    fn sleep(&mut self) -> Result<(), u64> {
        let tenths = self.complete(|u, n| unsafe { tag_sleep(u, n) })?.ended as u32;
        self.ask(|u, n, a, room| unsafe { tag_elapsed(u, n, tenths, a, room) })?;
        Ok(())
    }

    fn ring(&mut self, tenths: u16) -> Result<(), u64> {
        let [high, low] = tenths.to_be_bytes();
        self.request(0x05, &derived(2)?, &[0xFF, high, low, 2])?;
        let left = u16::from_be_bytes([self.answer[12], self.answer[13]]);
        println!("ring accepted: status {}, mask 0x{:02x}, {left} tenths left", self.answer[10], self.answer[11]);
        Ok(())
    }
}

/// The recovery (1), ring (2) or protection (3) key.
fn derived(which: u8) -> Result<[u8; 8], u64> {
    let message = [&IDENTITY[..], &[which]].concat();
    let mut digest = [0; 32];
    given(unsafe { tag_sha256(message.as_ptr(), message.len() as u64, digest.as_mut_ptr(), 32) })?;
    Ok(digest[..8].try_into().unwrap())
}

type Cipher = unsafe extern "C" fn(*const u8, u64, *const u8, u64, *mut u8, u64) -> u64;

fn blocks(cipher: Cipher, from: &[u8]) -> Result<[u8; 32], u64> {
    let mut to = [0; 32];
    for half in [0, 16] {
        given(unsafe { cipher(ACCOUNT_KEY.as_ptr(), 16, from[half..].as_ptr(), 16, to[half..].as_mut_ptr(), 16) })?;
    }
    Ok(to)
}

fn provision(host: &mut Host) -> Result<(), u64> {
    host.complete(|u, n| unsafe { tag_new(u, n, -20, 2, 1) })?;
    host.complete(|u, n| unsafe { tag_account_key(u, n, ACCOUNT_KEY.as_ptr(), 16) })?;
    host.request(0x01, &ACCOUNT_KEY, &[])?;
    println!("state read: bits 0x{:02x}, so the key used is the owner and no identity key is held", host.answer[10]);
    host.request(0x02, &ACCOUNT_KEY, &blocks(tag_aes128_encrypt, &IDENTITY)?)?;
    let waits = host.record[WAITING_HELD_AT] == 1 && host.record[IDENTITY_HELD_AT] == 0;
    println!("key accepted: it {}", if waits { "waits for the phone to hang up" } else { "does not wait" });
    host.complete(|u, n| unsafe { tag_disconnect(u, n) })?;
    println!("provisioned: identity key {}", if host.record[IDENTITY_HELD_AT] == 1 { "held" } else { "missing" });
    Ok(())
}

fn recover(host: &mut Host) -> Result<(), u64> {
    let key = derived(1)?;
    if let Err(refusal) = host.request(0x04, &key, &[]) {
        println!("recovery without consent: refused with 0x{refusal:02x}");
    }
    host.ask(|u, n, a, room| unsafe { tag_button(u, n, a, room) })?;
    host.request(0x04, &key, &[])?;
    let same = blocks(tag_aes128_decrypt, &host.answer[10..])? == IDENTITY;
    println!("recovery after a press of the button: the identity key is {}", if same { "the same" } else { "another" });
    Ok(())
}

fn save_and_reload(host: &mut Host, path: &str) -> Result<(), u64> {
    fs::write(path, host.record).expect("the record is saved");
    host.record.fill(0xFF);
    if let Err(refusal) = host.ask(|u, n, a, room| unsafe { tag_frame(u, n, a, room) }) {
        println!("after a reboot, with flash that holds no record: the frame is refused with {refusal}");
    }
    host.record.copy_from_slice(&fs::read(path).expect("the record is read"));
    println!("record reloaded");
    host.advertise()
}

/// What a returns desk does: reads the frame that the unit sends.
fn read_own_frame(host: &mut Host) -> Result<(), u64> {
    let mut parts = [0; PARTS_SIZE];
    host.complete(|u, n| unsafe { tag_battery(u, n, 2) })?;
    host.advertise()?;
    host.request(0x01, &ACCOUNT_KEY, &[])?;
    let (sent, frame) = (host.frame.as_ptr(), host.frame.len() as u64);
    given(unsafe { tag_frame_read(sent, frame, parts.as_mut_ptr(), parts.len() as u64) })?;
    let same = if parts[..20] == host.answer[11..31] { "that of 0x01" } else { "another" };
    let flags = if parts[21] == 1 { "shown" } else { "left out" };
    println!("frame of {frame} bytes read back: the identifier is {same}, protection {}, flags byte {flags}", parts[20]);
    let number = unsafe { tag_frame_read(sent, frame - 1, parts.as_mut_ptr(), parts.len() as u64) };
    println!("the frame cut by a byte: refused with {} at place {}", number % 65536 - 256, number / 65536);
    Ok(())
}

fn session(path: &str) -> Result<(), u64> {
    let mut host = Host { record: [0; RECORD_SIZE], answer: [0; ANSWER_ROOM], nonce: 0, reach: 0x03, frame: vec![], made_from: vec![] };
    provision(&mut host)?;
    host.ring(50)?;
    let tenths = host.complete(|u, n| unsafe { tag_sleep(u, n) })?.ended as u32;
    println!("the chip sleeps for {tenths} tenths, until time does something, and no further");
    let passed = host.ask(|u, n, a, room| unsafe { tag_elapsed(u, n, tenths, a, room) })?;
    println!("{tenths} tenths later: notice of {} bytes, status {}, the ring ended at tenth {}", passed.bytes, host.answer[10], passed.ended);
    host.reach = 0x02;
    host.ring(600)?;
    host.reach = 0x00;
    host.ring(50)?;
    host.reach = 0x03;
    host.ask(|u, n, a, room| unsafe { tag_button(u, n, a, room) })?;
    println!("button: status {}, {}", host.answer[10], if host.record[SOUND_KIND_AT] == 1 { "ringing" } else { "silent" });
    recover(&mut host)?;
    host.advertise()?;
    save_and_reload(&mut host, path)?;
    read_own_frame(&mut host)?;
    host.sleep()?;
    host.advertise()?;
    while host.record[CLOCK_SECONDS_AT + 2] < 4 {
        host.sleep()?; // on to the next window
    }
    println!("the next window:");
    host.advertise()
}

fn main() {
    let path = std::env::args().nth(1).unwrap_or_else(|| "unit.record".into());
    if let Err(refusal) = session(&path) {
        println!("refused with 0x{refusal:02x}");
        std::process::exit(1);
    }
}
