// The same algorithm as the proved crates limbs, field, points and curves, in Rust without proofs: limbs of 32 bits over any width,
// Montgomery's product, Jacobian coordinates with mixed addition, one inversion. Reads and prints as curve_vectors does, for speed.sh;
// compare/speed takes the multiple of 0x01 from here.
use std::io::{Read, Write};

pub type Form = [u32; 8];

pub struct Curve {
    width: usize,
    p: Form,
    inv: u32,
    square: Form,
    exponent: Form,
    x: Form,
    y: Form,
    span: usize,
    n: Form,
    bits: usize,
    size: usize,
}

pub const SECP160R1: Curve = Curve {
    width: 5,
    p: [0x7fffffff, 0xffffffff, 0xffffffff, 0xffffffff, 0xffffffff, 0, 0, 0],
    inv: 0x80000001,
    square: [1, 0x40000001, 0, 0, 0, 0, 0, 0],
    exponent: [0x7ffffffd, 0xffffffff, 0xffffffff, 0xffffffff, 0xffffffff, 0, 0, 0],
    x: [0x13cbfc82, 0x68c38bb9, 0x46646989, 0x8ef57328, 0x4a96b568, 0, 0, 0],
    y: [0x7ac5fb32, 0x04235137, 0x59dcc912, 0x3168947d, 0x23a62855, 0, 0, 0],
    span: 6,
    n: [0xca752257, 0xf927aed3, 0x0001f4c8, 0, 0, 1, 0, 0],
    bits: 161,
    size: 20,
};

const SECP256R1: Curve = Curve {
    width: 8,
    p: [0xffffffff, 0xffffffff, 0xffffffff, 0, 0, 0, 1, 0xffffffff],
    inv: 1,
    square: [3, 0, 0xffffffff, 0xfffffffb, 0xfffffffe, 0xffffffff, 0xfffffffd, 4],
    exponent: [0xfffffffd, 0xffffffff, 0xffffffff, 0, 0, 0, 1, 0xffffffff],
    x: [0xd898c296, 0xf4a13945, 0x2deb33a0, 0x77037d81, 0x63a440f2, 0xf8bce6e5, 0xe12c4247, 0x6b17d1f2],
    y: [0x37bf51f5, 0xcbb64068, 0x6b315ece, 0x2bce3357, 0x7c0f9e16, 0x8ee7eb4a, 0xfe1a7f9b, 0x4fe342e2],
    span: 8,
    n: [0xfc632551, 0xf3b9cac2, 0xa7179e84, 0xbce6faad, 0xffffffff, 0xffffffff, 0, 0xffffffff],
    bits: 256,
    size: 32,
};

fn sum64(t: u32, x: u32, y: u32, c: u32) -> u64 {
    t as u64 + x as u64 * y as u64 + c as u64
}

fn add_times(t: &mut [u32], x: u32, b: &[u32]) -> u32 {
    let mut carry = 0;
    for i in 0..b.len() {
        let s = sum64(t[i], x, b[i], carry);
        t[i] = s as u32;
        carry = (s >> 32) as u32;
    }
    carry
}

fn twice(t: &mut [u32], bit: u32) -> u32 {
    let mut carry = bit;
    for limb in t {
        let s = sum64(0, 2, *limb, carry);
        *limb = s as u32;
        carry = (s >> 32) as u32;
    }
    carry
}

fn subtract(t: &mut [u32], b: &[u32]) -> u32 {
    let mut carry = 1;
    for i in 0..b.len() {
        let s = sum64(t[i], 1, !b[i], carry);
        t[i] = s as u32;
        carry = (s >> 32) as u32;
    }
    carry
}

fn less(a: &[u32], b: &[u32]) -> bool {
    for i in (0..a.len()).rev() {
        if a[i] != b[i] {
            return a[i] < b[i];
        }
    }
    false
}

fn reduce_once(t: &mut [u32], top: u32, m: &[u32]) {
    if top == 0 && less(t, m) {
        return;
    }
    subtract(t, m);
}

fn step(t: &mut [u32], top: u32, x: u32, b: &[u32], m: &[u32], inv: u32) -> u32 {
    let first = sum64(t[0], x, b[0], 0);
    let bottom = first as u32;
    let q = bottom.wrapping_mul(inv);
    let mut carry = (first >> 32) as u32;
    let mut carry_m = (sum64(bottom, q, m[0], 0) >> 32) as u32;
    let n = m.len();
    for i in 1..n {
        let s = sum64(t[i], x, b[i], carry);
        carry = (s >> 32) as u32;
        let z = sum64(s as u32, q, m[i], carry_m);
        carry_m = (z >> 32) as u32;
        t[i - 1] = z as u32;
    }
    let last = top as u64 + carry as u64 + carry_m as u64;
    t[n - 1] = last as u32;
    (last >> 32) as u32
}

fn product(a: Form, b: Form, m: &[u32], inv: u32) -> Form {
    let n = m.len();
    let mut t = [0; 8];
    let mut top = 0;
    for i in 0..n {
        top = step(&mut t[..n], top, a[i], &b[..n], m, inv);
    }
    reduce_once(&mut t[..n], top, m);
    t
}

fn sum(a: Form, b: Form, m: &[u32]) -> Form {
    let n = m.len();
    let mut t = a;
    let top = add_times(&mut t[..n], 1, &b[..n]);
    reduce_once(&mut t[..n], top, m);
    t
}

fn difference(a: Form, b: Form, m: &[u32]) -> Form {
    let n = m.len();
    let mut t = a;
    if subtract(&mut t[..n], &b[..n]) == 0 {
        add_times(&mut t[..n], 1, m);
    }
    t
}

fn is_zero(a: Form, m: &[u32]) -> bool {
    a[..m.len()].iter().all(|x| *x == 0)
}

fn bit(t: &[u32], i: usize) -> u32 {
    (t[i / 32] >> (i % 32)) & 1
}

fn power(a: Form, e: &[u32], one: Form, m: &[u32], inv: u32) -> Form {
    let mut t = one;
    for i in (0..32 * e.len()).rev() {
        t = product(t, t, m, inv);
        if bit(e, i) != 0 {
            t = product(t, a, m, inv);
        }
    }
    t
}

#[derive(Clone, Copy)]
struct Jacobian {
    x: Form,
    y: Form,
    z: Form,
}

fn double(j: Jacobian, m: &[u32], inv: u32) -> Jacobian {
    let yy = product(j.y, j.y, m, inv);
    let zz = product(j.z, j.z, m, inv);
    let slope = product(difference(j.x, zz, m), sum(j.x, zz, m), m, inv);
    let slope = sum(sum(slope, slope, m), slope, m);
    let s = product(j.x, yy, m, inv);
    let s = sum(s, s, m);
    let s = sum(s, s, m);
    let x = difference(product(slope, slope, m, inv), sum(s, s, m), m);
    let w = product(yy, yy, m, inv);
    let w = sum(w, w, m);
    let w = sum(w, w, m);
    let w = sum(w, w, m);
    let y = difference(product(slope, difference(s, x, m), m, inv), w, m);
    let z = product(j.y, j.z, m, inv);
    Jacobian { x, y, z: sum(z, z, m) }
}

fn add(j: Jacobian, x: Form, y: Form, one: Form, m: &[u32], inv: u32) -> Jacobian {
    if is_zero(j.z, m) {
        return Jacobian { x, y, z: one };
    }
    let zz = product(j.z, j.z, m, inv);
    let h = difference(product(x, zz, m, inv), j.x, m);
    let r = difference(product(y, product(j.z, zz, m, inv), m, inv), j.y, m);
    if is_zero(h, m) && is_zero(r, m) {
        return double(j, m, inv);
    }
    let hh = product(h, h, m, inv);
    let hhh = product(h, hh, m, inv);
    let s = product(j.x, hh, m, inv);
    let next = difference(difference(product(r, r, m, inv), hhh, m), sum(s, s, m), m);
    let side = difference(product(r, difference(s, next, m), m, inv), product(j.y, hhh, m, inv), m);
    Jacobian { x: next, y: side, z: product(h, j.z, m, inv) }
}

pub fn times_base(c: &Curve, number: [u8; 32]) -> (Form, Form) {
    let (w, k) = (c.width, c.span);
    let (m, n, inv) = (&c.p[..w], &c.n[..k], c.inv);
    let mut r = [0; 8];
    for byte in number {
        for i in (0..8).rev() {
            let top = twice(&mut r[..k], (byte >> i & 1) as u32);
            reduce_once(&mut r[..k], top, n);
        }
    }
    let plain_one = [1, 0, 0, 0, 0, 0, 0, 0];
    let one = product(plain_one, c.square, m, inv);
    let x = product(c.x, c.square, m, inv);
    let y = product(c.y, c.square, m, inv);
    let mut j = Jacobian { x: one, y: one, z: [0; 8] };
    for i in (0..c.bits).rev() {
        j = double(j, m, inv);
        if bit(&r[..k], i) != 0 {
            j = add(j, x, y, one, m, inv);
        }
    }
    let zz = product(j.z, j.z, m, inv);
    let found = product(j.x, power(zz, &c.exponent[..w], one, m, inv), m, inv);
    (r, product(found, plain_one, m, inv))
}

fn hex(t: Form, size: usize) -> String {
    (0..2 * size).rev().map(|i| char::from_digit(t[i / 8] >> (4 * (i % 8)) & 15, 16).unwrap()).collect()
}

fn main() {
    let mut text = String::new();
    std::io::stdin().read_to_string(&mut text).unwrap();
    let mut out = std::io::stdout().lock();
    for line in text.lines() {
        let curve = if line.starts_with('0') { &SECP160R1 } else { &SECP256R1 };
        let mut number = [0; 32];
        for i in 0..32 {
            number[i] = u8::from_str_radix(&line[2 + 2 * i..4 + 2 * i], 16).unwrap();
        }
        let (r, x) = times_base(curve, number);
        writeln!(out, "r={}\nx={}", hex(r, 32), hex(x, curve.size)).unwrap();
    }
}
