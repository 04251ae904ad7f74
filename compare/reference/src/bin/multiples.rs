//! Multiples of the base points: a line `curve number` in, 0 for secp160r1 and 1 for secp256r1, the number r' in 64 hex digits; two lines
//! r= and x= out.

use reference::curve::{secp160r1, secp256r1};
use reference::numbers::to_bytes;
use std::io::{BufRead, Write};

fn hex(bytes: &[u8]) -> String {
    bytes.iter().map(|b| format!("{b:02x}")).collect()
}

fn main() {
    let curves = [secp160r1(), secp256r1()];
    let mut out = std::io::BufWriter::new(std::io::stdout().lock());
    for line in std::io::stdin().lock().lines() {
        let line = line.unwrap();
        let (curve, digits) = line.split_once(' ').expect("curve and number");
        let curve = &curves[curve.parse::<usize>().expect("0 or 1")];
        let number: Vec<u8> = (0..32).map(|n| u8::from_str_radix(&digits[2 * n..2 * n + 2], 16).expect("hex")).collect();
        let (r, x) = curve.multiple(&number.try_into().unwrap());
        writeln!(out, "r={}\nx={}", hex(&to_bytes(&r)), hex(&to_bytes(&x)[32 - curve.size..])).unwrap();
    }
}
