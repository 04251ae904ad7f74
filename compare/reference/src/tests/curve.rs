//! The curves against published multiples, the identifier at the edges of r, AES-256 against published vectors.

use super::hex;
use crate::curve::{secp160r1, secp256r1, Curve, Point};
use crate::identifier::{of, of_r_prime, r_prime};
use crate::numbers::{from_bytes, to_bytes, Number};
use crate::primitives::{aes256_encrypt, encrypt256_call, SIZE};

fn number(digits: &str) -> Number {
    from_bytes(&hex(digits))
}

fn multiple_is(curve: &Curve, r: &str, x: &str) {
    let (found_r, found_x) = curve.multiple(&to_bytes(&number(r)));
    assert_eq!((found_r, found_x), (number(r), number(x)));
}

/// Key pairs of GEC 2, and multiples of the base point of P-256 published by NIST.
#[test]
fn published_multiples() {
    let curve = secp160r1();
    multiple_is(&curve, "aa374ffc3ce144e6b073307972cb6d57b2a4e982", "51b4496fecc406ed0e75a24a3c03206251419dc0");
    multiple_is(&curve, "45fb58a92a17ad4b15101c66e74f277e2b460866", "49b41e0e9c0369c2328739d90f63d56707c6e5bc");
    let curve = secp256r1();
    multiple_is(&curve, "02", "7cf27b188d034f7e8a52380304b51ac3c08969e277f21b35a60b48fc47669978");
    multiple_is(&curve, "018ebbb95eed0e13", "339150844ec15234807fe862a86be77977dbfb3ae3d96f4c22795513aeaab82f");
}

#[test]
fn curves_hold_together() {
    for curve in [secp160r1(), secp256r1()] {
        assert!(curve.holds(&curve.g));
        assert_eq!(curve.times(&curve.n, &curve.g), Point::Infinity);
        let mut total = Point::Infinity;
        for n in 0..20 {
            assert_eq!(curve.times(&[n, 0, 0, 0], &curve.g), total);
            assert!(curve.holds(&total));
            total = curve.add(&total, &curve.g);
        }
        // One less than the order gives the mirrored base point; with the base point it gives infinity.
        let mut less = curve.n;
        less[0] -= 1;
        let mirrored = curve.times(&less, &curve.g);
        assert_eq!(curve.add(&mirrored, &curve.g), Point::Infinity);
        match (mirrored, curve.g) {
            (Point::At(x, y), Point::At(gx, gy)) => assert!(x == gx && y != gy),
            _ => panic!(),
        }
    }
}

/// r' at the edges: r of 0, of 1, of 2^160 and of the order less one.
#[test]
fn edges_of_r() {
    let order = number("0100000000000000000001f4c8f927aed3ca752257");
    let of = |r_prime: &str| of_r_prime(&to_bytes(&number(r_prime)));
    assert_eq!(of("00"), None);
    assert_eq!(of_r_prime(&to_bytes(&order)), None);
    assert_eq!(of("0200000000000000000003e991f24f5da794ea44ae"), None);
    let one = of("01").unwrap();
    assert_eq!(one.id.to_vec(), hex("4a96b5688ef573284664698968c38bb913cbfc82"));
    assert_eq!(one.r.to_vec(), hex("0000000000000000000000000000000000000001"));
    assert_eq!(of("0100000000000000000001f4c8f927aed3ca752258"), Some(one));
    // The order less one: 161 bits, cut to 160; the same x as the base point's.
    let last = of("0100000000000000000001f4c8f927aed3ca752256").unwrap();
    assert_eq!(last.id, one.id);
    assert_eq!(last.r.to_vec(), hex("00000000000000000001f4c8f927aed3ca752256"));
    // 2^160: the multiple takes all 161 bits, the cut leaves twenty zero bytes; it isn't refused.
    let cut = of("010000000000000000000000000000000000000000").unwrap();
    assert_eq!(cut.r, [0; 20]);
    assert_ne!(cut.id, [0; 20]);
}

#[test]
fn by_key_and_window() {
    let key: [u8; 32] = core::array::from_fn(|n| n as u8);
    let table = hex("ffffffffffffffffffffff0a00000400 00000000000000000000000a00000400");
    let blocks: Vec<u8> = table.chunks(16).flat_map(|block| aes256_encrypt(&key, block.try_into().unwrap())).collect();
    assert_eq!(r_prime(&key, 1_024).to_vec(), blocks);
    assert_eq!(of(&key, 1_024), of_r_prime(&r_prime(&key, 1_024)));
    assert_eq!(of(&key, 1_024), of(&key, 1_024));
    assert_ne!(of(&key, 1_024), of(&key, 0));
    assert_ne!(of(&key, 1_024), of(&[7; 32], 1_024));
}

/// FIPS 197, C.3; SP 800-38A, F.1.5.
#[test]
fn aes_256() {
    let key: [u8; 32] = core::array::from_fn(|n| n as u8);
    let block: [u8; 16] = core::array::from_fn(|n| 0x11 * n as u8);
    assert_eq!(aes256_encrypt(&key, &block).to_vec(), hex("8ea2b7ca516745bfeafc49904b496089"));
    let key: [u8; 32] = hex("603deb1015ca71be2b73aef0857d77811f352c073b6108d72d9810a30914dff4").try_into().unwrap();
    for (plain, cipher) in [
        ("6bc1bee22e409f96e93d7e117393172a", "f3eed1bdb5d2a03c064b5a7e3db181f8"),
        ("ae2d8a571e03ac9c9eb76fac45af8e51", "591ccb10d410ed26dc5ba74a31362870"),
        ("30c81c46a35ce411e5fbc1191a0a52ef", "b6ed21b99ca6f4f9f153e7b1beafed1d"),
        ("f69f2445df4f9b17ad2b417be66c3710", "23304b7a39f9f3ff067d8d8f9e24ecc7"),
    ] {
        let mut answer = [0; 16];
        assert_eq!(encrypt256_call(&key, &hex(plain), &mut answer), Ok(()));
        assert_eq!(answer.to_vec(), hex(cipher));
    }
    for (key, block, room) in [(16, 16, 16), (31, 16, 16), (33, 16, 16), (32, 15, 16), (32, 17, 16), (32, 16, 15), (32, 16, 17)] {
        let mut answer = vec![0xa5; room];
        assert_eq!(encrypt256_call(&vec![0; key], &vec![0; block], &mut answer), Err(SIZE));
        assert!(answer.iter().all(|b| *b == 0xa5));
    }
}
