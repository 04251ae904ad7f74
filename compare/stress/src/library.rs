//! The proved library's calls over the C boundary, as include/tag.h declares them.

use reference::boundary::Call;

extern "C" {
    fn tag_new(record: *mut u8, n: u64, power: i32, components: u32, selectable: u32) -> u64;
    fn tag_read(record: *mut u8, n: u64, nonce: *const u8, m: u64, answer: *mut u8, room: u64) -> u64;
    fn tag_write(record: *mut u8, n: u64, data: *const u8, m: u64, reach: u32, answer: *mut u8, room: u64) -> u64;
    fn tag_button(record: *mut u8, n: u64, answer: *mut u8, room: u64) -> u64;
    fn tag_elapsed(record: *mut u8, n: u64, tenths: u32, answer: *mut u8, room: u64) -> u64;
    fn tag_disconnect(record: *mut u8, n: u64) -> u64;
    fn tag_pairing(record: *mut u8, n: u64, on: u32) -> u64;
    fn tag_battery(record: *mut u8, n: u64, level: u32) -> u64;
    fn tag_account_key(record: *mut u8, n: u64, key: *const u8, m: u64) -> u64;
    fn tag_frame(record: *mut u8, n: u64, answer: *mut u8, room: u64) -> u64;
    fn tag_frame_read(frame: *const u8, n: u64, parts: *mut u8, room: u64) -> u64;
    fn tag_frame_read_with_r(frame: *const u8, n: u64, r: *const u8, m: u64, parts: *mut u8, room: u64) -> u64;
    fn tag_sleep(record: *const u8, n: u64) -> u64;
}

/// The call over the C boundary.
pub fn ours(c: &Call, record: &mut [u8], answer: &mut [u8]) -> u64 {
    let (r, n, a, room) = (record.as_mut_ptr(), record.len() as u64, answer.as_mut_ptr(), answer.len() as u64);
    unsafe {
        match c {
            Call::New(p, k, s) => tag_new(r, n, *p, *k, *s),
            Call::Read(b) => tag_read(r, n, b.as_ptr(), b.len() as u64, a, room),
            Call::Write(b, reach) => tag_write(r, n, b.as_ptr(), b.len() as u64, *reach, a, room),
            Call::Button => tag_button(r, n, a, room),
            Call::Elapsed(t) => tag_elapsed(r, n, *t, a, room),
            Call::Disconnect => tag_disconnect(r, n),
            Call::Pairing(on) => tag_pairing(r, n, *on),
            Call::Battery(level) => tag_battery(r, n, *level),
            Call::AccountKey(b) => tag_account_key(r, n, b.as_ptr(), b.len() as u64),
            Call::Frame => tag_frame(r, n, a, room),
            Call::Sleep => tag_sleep(r, n),
        }
    }
}

/// The reader over the C boundary, with or without r.
pub fn read_frame(text: &[u8], r: Option<&[u8]>, parts: &mut [u8]) -> u64 {
    let (t, n, p, room) = (text.as_ptr(), text.len() as u64, parts.as_mut_ptr(), parts.len() as u64);
    unsafe {
        match r {
            None => tag_frame_read(t, n, p, room),
            Some(r) => tag_frame_read_with_r(t, n, r.as_ptr(), r.len() as u64, p, room),
        }
    }
}
