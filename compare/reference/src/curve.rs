//! Points of the curves of SEC 2 in affine coordinates, added by the cases of SEC 1, 2.2.1.

use crate::numbers::{bit, difference, from_bytes, inverse, product, remainder, sum, Number, ZERO};

pub struct Curve {
    /// The field's prime.
    pub p: Number,
    pub a: Number,
    pub b: Number,
    /// The base point.
    pub g: Point,
    /// Its order.
    pub n: Number,
    /// Bytes of a coordinate.
    pub size: usize,
}

#[derive(Clone, Copy, Debug, PartialEq, Eq)]
pub enum Point {
    Infinity,
    At(Number, Number),
}

fn number(digits: &str) -> Number {
    let digits: Vec<u8> = digits.bytes().filter(|b| *b != b' ').map(|b| (b as char).to_digit(16).unwrap() as u8).collect();
    from_bytes(&digits.chunks(2).map(|pair| pair[0] * 16 + pair[1]).collect::<Vec<u8>>())
}

/// SEC 2, 2.4.2.
pub fn secp160r1() -> Curve {
    Curve {
        p: number("FFFFFFFF FFFFFFFF FFFFFFFF FFFFFFFF 7FFFFFFF"),
        a: number("FFFFFFFF FFFFFFFF FFFFFFFF FFFFFFFF 7FFFFFFC"),
        b: number("1C97BEFC 54BD7A8B 65ACF89F 81D4D4AD C565FA45"),
        g: Point::At(number("4A96B568 8EF57328 46646989 68C38BB9 13CBFC82"), number("23A62855 3168947D 59DCC912 04235137 7AC5FB32")),
        n: number("01 00000000 00000000 0001F4C8 F927AED3 CA752257"),
        size: 20,
    }
}

/// SEC 2, 2.7.2 (2.4.2 in its second version).
pub fn secp256r1() -> Curve {
    Curve {
        p: number("FFFFFFFF 00000001 00000000 00000000 00000000 FFFFFFFF FFFFFFFF FFFFFFFF"),
        a: number("FFFFFFFF 00000001 00000000 00000000 00000000 FFFFFFFF FFFFFFFF FFFFFFFC"),
        b: number("5AC635D8 AA3A93E7 B3EBBD55 769886BC 651D06B0 CC53B0F6 3BCE3C3E 27D2604B"),
        g: Point::At(
            number("6B17D1F2 E12C4247 F8BCE6E5 63A440F2 77037D81 2DEB33A0 F4A13945 D898C296"),
            number("4FE342E2 FE1A7F9B 8EE7EB4A 7C0F9E16 2BCE3357 6B315ECE CBB64068 37BF51F5"),
        ),
        n: number("FFFFFFFF 00000000 FFFFFFFF FFFFFFFF BCE6FAAD A7179E84 F3B9CAC2 FC632551"),
        size: 32,
    }
}

impl Curve {
    /// Whether y^2 = x^3 + a x + b.
    pub fn holds(&self, point: &Point) -> bool {
        match point {
            Point::Infinity => true,
            Point::At(x, y) => {
                let p = &self.p;
                let cube = product(&product(x, x, p), x, p);
                product(y, y, p) == sum(&sum(&cube, &product(&self.a, x, p), p), &self.b, p)
            }
        }
    }

    /// The third point of the line with this slope through two points, mirrored.
    fn third(&self, slope: &Number, x1: &Number, y1: &Number, x2: &Number) -> Point {
        let p = &self.p;
        let x3 = difference(&difference(&product(slope, slope, p), x1, p), x2, p);
        let y3 = difference(&product(slope, &difference(x1, &x3, p), p), y1, p);
        Point::At(x3, y3)
    }

    pub fn double(&self, point: &Point) -> Point {
        let p = &self.p;
        match point {
            Point::Infinity => Point::Infinity,
            Point::At(_, y) if *y == ZERO => Point::Infinity,
            Point::At(x, y) => {
                let square = product(x, x, p);
                let above = sum(&sum(&square, &sum(&square, &square, p), p), &self.a, p);
                let slope = product(&above, &inverse(&sum(y, y, p), p), p);
                self.third(&slope, x, y, x)
            }
        }
    }

    pub fn add(&self, one: &Point, other: &Point) -> Point {
        let p = &self.p;
        match (one, other) {
            (Point::Infinity, _) => *other,
            (_, Point::Infinity) => *one,
            (Point::At(x1, y1), Point::At(x2, y2)) => {
                if x1 != x2 {
                    let slope = product(&difference(y2, y1, p), &inverse(&difference(x2, x1, p), p), p);
                    self.third(&slope, x1, y1, x2)
                } else if y1 == y2 {
                    self.double(one)
                } else {
                    Point::Infinity
                }
            }
        }
    }

    /// The point so many times.
    pub fn times(&self, many: &Number, point: &Point) -> Point {
        let mut total = Point::Infinity;
        for place in (0..256).rev() {
            total = self.double(&total);
            if bit(many, place) {
                total = self.add(&total, point);
            }
        }
        total
    }

    /// r = r' mod n, and the x coordinate of r G; that of infinity counts as 0.
    pub fn multiple(&self, r_prime: &[u8; 32]) -> (Number, Number) {
        let r = remainder(&from_bytes(r_prime), &self.n);
        match self.times(&r, &self.g) {
            Point::Infinity => (r, ZERO),
            Point::At(x, _) => (r, x),
        }
    }
}
