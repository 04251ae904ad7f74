//! Numbers below 2^256, by hand: four words of 64 bits, the lowest first.

pub type Number = [u64; 4];

pub const ZERO: Number = [0; 4];
pub const ONE: Number = [1, 0, 0, 0];

pub fn from_bytes(bytes: &[u8]) -> Number {
    assert!(bytes.len() <= 32);
    let mut number = ZERO;
    for (place, byte) in bytes.iter().rev().enumerate() {
        number[place / 8] |= (*byte as u64) << (8 * (place % 8));
    }
    number
}

/// The 32 bytes, big-endian.
pub fn to_bytes(number: &Number) -> [u8; 32] {
    core::array::from_fn(|n| (number[(31 - n) / 8] >> (8 * ((31 - n) % 8))) as u8)
}

pub fn bit(number: &Number, place: usize) -> bool {
    number[place / 64] >> (place % 64) & 1 == 1
}

/// The sum, and whether it went over 2^256.
fn plus(a: &Number, b: &Number) -> (Number, bool) {
    let mut sum = ZERO;
    let mut carry = 0u128;
    for n in 0..4 {
        let word = a[n] as u128 + b[n] as u128 + carry;
        sum[n] = word as u64;
        carry = word >> 64;
    }
    (sum, carry != 0)
}

/// The difference modulo 2^256, and whether it went below 0.
fn minus(a: &Number, b: &Number) -> (Number, bool) {
    let mut difference = ZERO;
    let mut borrow = false;
    for n in 0..4 {
        let (word, one) = a[n].overflowing_sub(b[n]);
        let (word, two) = word.overflowing_sub(borrow as u64);
        difference[n] = word;
        borrow = one || two;
    }
    (difference, borrow)
}

/// Half of a number that has one more bit on top.
fn half(number: &Number, top: bool) -> Number {
    let above = [number[1], number[2], number[3], top as u64];
    core::array::from_fn(|n| number[n] >> 1 | above[n] << 63)
}

// What follows is modulo an odd m; the numbers are below m.

pub fn sum(a: &Number, b: &Number, m: &Number) -> Number {
    let (total, over) = plus(a, b);
    let (less, borrow) = minus(&total, m);
    if over || !borrow { less } else { total }
}

pub fn difference(a: &Number, b: &Number, m: &Number) -> Number {
    let (less, borrow) = minus(a, b);
    if borrow { plus(&less, m).0 } else { less }
}

/// By doubling and adding, from the top bit of b down.
pub fn product(a: &Number, b: &Number, m: &Number) -> Number {
    let mut total = ZERO;
    for place in (0..256).rev().skip_while(|place| !bit(b, *place)) {
        total = sum(&total, &total, m);
        if bit(b, place) {
            total = sum(&total, a, m);
        }
    }
    total
}

/// Any number modulo m, bit by bit.
pub fn remainder(number: &Number, m: &Number) -> Number {
    let mut rest = ZERO;
    for place in (0..256).rev() {
        rest = sum(&rest, &rest, m);
        if bit(number, place) {
            rest = sum(&rest, &ONE, m);
        }
    }
    rest
}

/// The inverse of a number that has one, by Euclid's algorithm with halvings: u = x a and v = y a, modulo m.
pub fn inverse(a: &Number, m: &Number) -> Number {
    let halved = |x: &Number| {
        if x[0] & 1 == 0 {
            half(x, false)
        } else {
            let (total, over) = plus(x, m);
            half(&total, over)
        }
    };
    let (mut u, mut v) = (*a, *m);
    let (mut x, mut y) = (ONE, ZERO);
    while u != ONE && v != ONE {
        while u[0] & 1 == 0 {
            u = half(&u, false);
            x = halved(&x);
        }
        while v[0] & 1 == 0 {
            v = half(&v, false);
            y = halved(&y);
        }
        let (less, borrow) = minus(&u, &v);
        if borrow {
            v = minus(&v, &u).0;
            y = difference(&y, &x, m);
        } else {
            u = less;
            x = difference(&x, &y, m);
        }
    }
    if u == ONE { x } else { y }
}
