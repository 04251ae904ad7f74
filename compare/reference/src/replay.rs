//! The replay program: the bytes of a replay file to the bytes of its answers.

use crate::tag::{self, Unit, ROOM};

/// The longest line, without its newline.
const LONGEST_LINE: usize = 256;
/// The last line number that a file may have.
const LAST_LINE: u32 = 999_999;

/// The number of a line that breaks the rules, or that is missing.
struct Malformed(u32);

struct Lines<'a> {
    rest: &'a [u8],
    /// Lines taken so far.
    taken: u32,
}

impl<'a> Lines<'a> {
    /// The next line with its number; none at the end of the file.
    fn next(&mut self) -> Result<Option<(u32, &'a [u8])>, Malformed> {
        if self.rest.is_empty() {
            return Ok(None);
        }
        let number = self.taken + 1;
        if number > LAST_LINE {
            return Err(Malformed(number));
        }
        let end = match self.rest.iter().position(|byte| *byte == b'\n') {
            Some(end) => end,
            None => return Err(Malformed(number)),
        };
        if end > LONGEST_LINE {
            return Err(Malformed(number));
        }
        let line = &self.rest[..end];
        self.rest = &self.rest[end + 1..];
        self.taken = number;
        Ok(Some((number, line)))
    }

    /// The value of the next line, which must be there and have this key.
    fn value(&mut self, key: &str) -> Result<(u32, &'a [u8]), Malformed> {
        let (number, line) = match self.next()? {
            Some(found) => found,
            None => return Err(Malformed(self.taken + 1)),
        };
        let start = format!("{key}=");
        match line.strip_prefix(start.as_bytes()) {
            Some(value) => Ok((number, value)),
            None => Err(Malformed(number)),
        }
    }

    fn unsigned(&mut self, key: &str) -> Result<u32, Malformed> {
        let (number, value) = self.value(key)?;
        match decimal(value) {
            Some(n) if n <= u32::MAX as u64 => Ok(n as u32),
            _ => Err(Malformed(number)),
        }
    }

    fn signed(&mut self, key: &str) -> Result<i32, Malformed> {
        let (number, value) = self.value(key)?;
        let n = match value.strip_prefix(b"-") {
            Some(digits) => match decimal(digits) {
                Some(0) | None => return Err(Malformed(number)),
                Some(n) => -(n as i64),
            },
            None => match decimal(value) {
                None => return Err(Malformed(number)),
                Some(n) => n as i64,
            },
        };
        i32::try_from(n).map_err(|_| Malformed(number))
    }

    fn hex(&mut self, key: &str) -> Result<Vec<u8>, Malformed> {
        let (number, value) = self.value(key)?;
        if value.len() % 2 != 0 {
            return Err(Malformed(number));
        }
        let mut bytes = Vec::new();
        for pair in value.chunks(2) {
            match (hex_digit(pair[0]), hex_digit(pair[1])) {
                (Some(high), Some(low)) => bytes.push(high * 16 + low),
                _ => return Err(Malformed(number)),
            }
        }
        Ok(bytes)
    }

    /// A single byte, two hex digits.
    fn one_byte(&mut self, key: &str) -> Result<u8, Malformed> {
        let bytes = self.hex(key)?;
        match bytes[..] {
            [byte] => Ok(byte),
            _ => Err(Malformed(self.taken)),
        }
    }
}

/// A decimal number of one to ten digits without a leading zero; none needed here is longer.
fn decimal(digits: &[u8]) -> Option<u64> {
    if digits.is_empty() || digits.len() > 10 {
        return None;
    }
    if digits[0] == b'0' && digits.len() > 1 {
        return None;
    }
    let mut n = 0u64;
    for digit in digits {
        if !digit.is_ascii_digit() {
            return None;
        }
        n = n * 10 + (digit - b'0') as u64;
    }
    Some(n)
}

fn hex_digit(byte: u8) -> Option<u8> {
    match byte {
        b'0'..=b'9' => Some(byte - b'0'),
        b'a'..=b'f' => Some(byte - b'a' + 10),
        _ => None,
    }
}

fn hex_text(bytes: &[u8]) -> String {
    let mut text = String::new();
    for byte in bytes {
        text.push_str(&format!("{byte:02x}"));
    }
    text
}

fn refused(out: &mut String, code: u8) {
    out.push_str(&format!("answer=refused\ncode={code:02x}\n"));
}

/// An answer with a first part of the lent bytes.
fn answered(out: &mut String, name: &str, result: Result<usize, u8>, answer: &[u8]) {
    match result {
        Ok(count) => {
            out.push_str(&format!("answer={name}\n"));
            if count > 0 {
                out.push_str(&format!("bytes={}\n", hex_text(&answer[..count])));
            }
        }
        Err(code) => refused(out, code),
    }
}

/// An answer of a call that lends no bytes.
fn done(out: &mut String, name: &str, result: Result<(), u8>) {
    match result {
        Ok(()) => out.push_str(&format!("answer={name}\n")),
        Err(code) => refused(out, code),
    }
}

pub fn replay(input: &[u8]) -> Vec<u8> {
    let mut out = String::new();
    let mut lines = Lines { rest: input, taken: 0 };
    if let Err(Malformed(number)) = run(&mut lines, &mut out) {
        out.push_str(&format!("answer=malformed\nline={number}\n"));
    }
    out.into_bytes()
}

fn run(lines: &mut Lines, out: &mut String) -> Result<(), Malformed> {
    let power = lines.signed("power")?;
    let components = lines.unsigned("components")?;
    let volume = lines.unsigned("volume")?;
    let mut unit = match tag::new_unit(power, components, volume) {
        Ok(unit) => unit,
        Err(code) => {
            refused(out, code);
            return Ok(());
        }
    };
    while let Some((number, line)) = lines.next()? {
        match line.strip_prefix(b"event=") {
            Some(name) => event(&mut unit, number, name, lines, out)?,
            None => return Err(Malformed(number)),
        }
    }
    Ok(())
}

/// One event: its own lines first, then the call, then the answer.
fn event(
    unit: &mut Unit,
    number: u32,
    name: &[u8],
    lines: &mut Lines,
    out: &mut String,
) -> Result<(), Malformed> {
    let mut answer = [0u8; ROOM];
    match name {
        b"read" => {
            let nonce = lines.hex("nonce")?;
            let result = tag::read(unit, &nonce, &mut answer);
            answered(out, "read", result, &answer);
        }
        b"write" => {
            let data = lines.hex("data")?;
            let reach = lines.one_byte("reach")?;
            let result = tag::write(unit, &data, reach as u32, &mut answer);
            answered(out, "write", result, &answer);
        }
        b"elapsed" => {
            let tenths = lines.unsigned("tenths")?;
            match tag::elapsed(unit, tenths, &mut answer) {
                Ok(passed) => {
                    out.push_str("answer=elapsed\n");
                    if passed.at == 0 {
                        out.push_str("notes=0\n");
                    } else {
                        let bytes = hex_text(&answer[..passed.written]);
                        out.push_str(&format!("notes=1\nat={}\nbytes={bytes}\n", passed.at));
                    }
                    out.push_str(&format!("clock={}\n", unit.seconds));
                }
                Err(code) => refused(out, code),
            }
        }
        b"button" => {
            let result = tag::button(unit, &mut answer);
            answered(out, "button", result, &answer);
        }
        b"disconnect" => done(out, "disconnect", tag::disconnect(unit)),
        b"pairing" => {
            let (at, value) = lines.value("on")?;
            let on = match value {
                b"0" => false,
                b"1" => true,
                _ => return Err(Malformed(at)),
            };
            done(out, "pairing", tag::pairing(unit, on));
        }
        b"battery" => {
            let level = lines.unsigned("level")?;
            done(out, "battery", tag::battery(unit, level));
        }
        b"key" => {
            let bytes = lines.hex("bytes")?;
            done(out, "key", tag::account_key(unit, &bytes));
        }
        b"frame" => {
            let result = tag::frame(unit, &mut answer);
            answered(out, "frame", result, &answer);
        }
        _ => return Err(Malformed(number)),
    }
    Ok(())
}
