//! The published vectors.

use super::hex;
use crate::primitives::*;

fn digest_is(message: &[u8], expected: &str) {
    let expected = hex(expected);
    assert_eq!(sha256(message).to_vec(), expected);
    if message.len() <= LONGEST {
        let mut answer = [0u8; 32];
        assert_eq!(hash_call(message, &mut answer), Ok(()));
        assert_eq!(answer.to_vec(), expected);
    }
}

#[test]
fn sha256_examples_of_fips_180() {
    digest_is(b"abc", "ba7816bf8f01cfea414140de5dae2223b00361a396177a9cb410ff61f20015ad");
    digest_is(
        b"abcdbcdecdefdefgefghfghighijhijkijkljklmklmnlmnomnopnopq",
        "248d6a61d20638b8e5c026930c3e6039a33ce45964ff2167f6ecedd419db06c1",
    );
    digest_is(
        b"abcdefghbcdefghicdefghijdefghijkefghijklfghijklmghijklmnhijklmnoijklmnopjklmnopqklmnopqrlmnopqrsmnopqrstnopqrstu",
        "cf5b16a778af8380036ce59e7b0492370b249b11e8f07a51afac45037afee9d1",
    );
    digest_is(b"", "e3b0c44298fc1c149afbf4c8996fb92427ae41e4649b934ca495991b7852b855");
    digest_is(
        &vec![b'a'; 1_000_000],
        "cdc76e5c9914fb9281a1c7e284d73e67f1809a48a497200e046d39ccc7112cd0",
    );
}

#[test]
fn sha256_additional_examples_of_nist() {
    digest_is(&[0xbd], "68325720aabd7c82f30f554b313d0570c95accbb7dc4b5aae11204c08ffe732b");
    digest_is(
        &hex("c98c8e55"),
        "7abc22c0ae5af26ce93dbb94433a0e0b2e119d014f8e7f65bd56c61ccccd9504",
    );
    digest_is(&[0; 55], "02779466cdec163811d078815c633f21901413081449002f24aa3e80f0b88ef7");
    digest_is(&[0; 56], "d4817aa5497628e7c77e6b606107042bbba3130888c5f47a375e6179be789fbb");
    digest_is(&[0; 57], "65a16cb7861335d5ace3c60718b5052e44660726da4cd13bb745381b235a1785");
    digest_is(&[0; 64], "f5a5fd42d16a20302798ef6ed309979b43003d2320d9f0e8ea9831a92759fb4b");
    digest_is(&[0; 1000], "541b3e9daa09b20bf85fa273e5cbd3e80185aa4ec298e765db87742b70138a53");
    digest_is(&[0x41; 1000], "c2e686823489ced2017f6059b8b239318b6364f6dcd835d0a519105a1eadd6e4");
    digest_is(&[0x55; 1005], "f4d62ddec0f3dd90ea1380fa16a5ff8dc4c54b21740650f24afc4120903552b0");
    digest_is(&[0xd3], "28969cdfa74a12c82f3bad960b0b000aca2ac329deea5c2328ebc6f2ba9802c1");
}

#[test]
fn sha256_at_the_size_limit() {
    digest_is(&vec![0x5a; 65_535], "500d8c05fe096a0bbb4d29a5eab3974790ec52c8e50e6f6b34ba456d4dd47d1e");
    let mut answer = [0xa5u8; 32];
    assert_eq!(hash_call(&vec![0x5a; 65_536], &mut answer), Err(SIZE));
    assert_eq!(answer, [0xa5; 32]);
    for wrong in [0, 31, 33] {
        assert_eq!(hash_call(b"abc", &mut vec![0; wrong]), Err(SIZE));
    }
}

fn hmac_is(key: &[u8], message: &[u8], expected: &str) {
    let expected = hex(expected);
    let mut answer = [0u8; 32];
    assert_eq!(hmac_call(key, message, &mut answer), Ok(()));
    assert_eq!(answer[..expected.len()].to_vec(), expected);
    assert_eq!(hmac_sha256(key, message), answer);
}

#[test]
fn hmac_of_rfc_4231() {
    hmac_is(
        &[0x0b; 20],
        b"Hi There",
        "b0344c61d8db38535ca8afceaf0bf12b881dc200c9833da726e9376c2e32cff7",
    );
    hmac_is(
        b"Jefe",
        b"what do ya want for nothing?",
        "5bdcc146bf60754e6a042426089575c75a003f089d2739839dec58b964ec3843",
    );
    hmac_is(
        &[0xaa; 20],
        &[0xdd; 50],
        "773ea91e36800e46854db8ebd09181a72959098b3ef8c122d9635514ced565fe",
    );
    hmac_is(
        &hex("0102030405060708090a0b0c0d0e0f10111213141516171819"),
        &[0xcd; 50],
        "82558a389a443c0ea4cc819899f2083a85f0faa3e578f8077a2e3ff46729665b",
    );
    hmac_is(&[0x0c; 20], b"Test With Truncation", "a3b6167473100ee06e0c796c2955552b");
    hmac_is(
        &[0xaa; 131],
        b"Test Using Larger Than Block-Size Key - Hash Key First",
        "60e431591ee0b67f0d8a26aacbf5b77f8e0bc6213728c5140546040f0ee37f54",
    );
    hmac_is(
        &[0xaa; 131],
        b"This is a test using a larger than block-size key and a larger than block-size data. The key needs to be hashed before being used by the HMAC algorithm.",
        "9b09ffa71b942fcb27635fbcd5b0e944bfdc63644f0713938a7f51535c3a35e2",
    );
}

#[test]
fn hmac_at_the_size_limit() {
    hmac_is(&vec![1; 65_535], &vec![2; 65_535], "00cb3a0e5c7aba35b6e1be05b7a0cd7fb863040ddd361e77928a1d00f165e41d");
    let mut answer = [0xa5u8; 32];
    assert_eq!(hmac_call(&vec![1; 65_536], b"", &mut answer), Err(SIZE));
    assert_eq!(hmac_call(b"", &vec![2; 65_536], &mut answer), Err(SIZE));
    assert_eq!(answer, [0xa5; 32]);
    for wrong in [0, 31, 33] {
        assert_eq!(hmac_call(b"", b"", &mut vec![0; wrong]), Err(SIZE));
    }
}

fn block_is(key: &str, plain: &str, cipher: &str) {
    let (key, plain, cipher) = (hex(key), hex(plain), hex(cipher));
    let mut answer = [0u8; 16];
    assert_eq!(encrypt_call(&key, &plain, &mut answer), Ok(()));
    assert_eq!(answer.to_vec(), cipher);
    assert_eq!(decrypt_call(&key, &cipher, &mut answer), Ok(()));
    assert_eq!(answer.to_vec(), plain);
}

#[test]
fn aes_examples_of_fips_197() {
    block_is(
        "2b7e151628aed2a6abf7158809cf4f3c",
        "3243f6a8885a308d313198a2e0370734",
        "3925841d02dc09fbdc118597196a0b32",
    );
    block_is(
        "000102030405060708090a0b0c0d0e0f",
        "00112233445566778899aabbccddeeff",
        "69c4e0d86a7b0430d8cdb78070b4c55a",
    );
}

#[test]
fn aes_examples_of_sp_800_38a() {
    let key = "2b7e151628aed2a6abf7158809cf4f3c";
    block_is(key, "6bc1bee22e409f96e93d7e117393172a", "3ad77bb40d7a3660a89ecaf32466ef97");
    block_is(key, "ae2d8a571e03ac9c9eb76fac45af8e51", "f5d3d58503b9699de785895a96fdbaaf");
    block_is(key, "30c81c46a35ce411e5fbc1191a0a52ef", "43b1cd7f598ece23881b00e3ed030688");
    block_is(key, "f69f2445df4f9b17ad2b417be66c3710", "7b0c785e27e8ad3f8223207104725dd4");
}

#[test]
fn aes_known_answers_of_nist() {
    let zeros = "00000000000000000000000000000000";
    block_is(zeros, "f34481ec3cc627bacd5dc3fb08f273e6", "0336763e966d92595a567cc9ce537f5e");
    block_is(zeros, "9798c4640bad75c7c3227db910174e72", "a9a1631bf4996954ebc093957b234589");
    block_is(zeros, "80000000000000000000000000000000", "3ad78e726c1ec02b7ebfe92b23d9ec34");
    block_is(zeros, "ffffffffffffffffffffffffffffffff", "3f5b8cc9ea855a0afa7347d23e8d664e");
    block_is("10a58869d74be5a374cf867cfb473859", zeros, "6d251e6944b051e04eaa6fb4dbf78465");
    block_is("80000000000000000000000000000000", zeros, "0edd33d3c621e546455bd8ba1418bec8");
    block_is("ffffffffffffffffffffffffffffffff", zeros, "a1f6258c877d5fcd8964484538bfc92c");
}

#[test]
fn aes_sizes() {
    for (key, block, room) in [(15, 16, 16), (17, 16, 16), (16, 15, 16), (16, 17, 16), (16, 16, 15), (16, 16, 17), (0, 0, 0)] {
        let mut answer = vec![0xa5; room];
        assert_eq!(encrypt_call(&vec![0; key], &vec![0; block], &mut answer), Err(SIZE));
        assert_eq!(decrypt_call(&vec![0; key], &vec![0; block], &mut answer), Err(SIZE));
        assert!(answer.iter().all(|b| *b == 0xa5));
    }
}

#[test]
fn aes_undoes_itself() {
    let mut dice = super::Dice(3);
    for _ in 0..500 {
        let key: [u8; 16] = core::array::from_fn(|_| dice.next() as u8);
        let block: [u8; 16] = core::array::from_fn(|_| dice.next() as u8);
        assert_eq!(aes128_decrypt(&key, &aes128_encrypt(&key, &block)), block);
        assert_eq!(aes128_encrypt(&key, &aes128_decrypt(&key, &block)), block);
    }
}

#[test]
fn boxes() {
    // Entries printed in FIPS 197, figures 7 and 14.
    assert_eq!(BOX[..8], [0x63, 0x7c, 0x77, 0x7b, 0xf2, 0x6b, 0x6f, 0xc5]);
    assert_eq!(BOX[0x53], 0xed);
    assert_eq!(BOX[0xf8..], [0x41, 0x99, 0x2d, 0x0f, 0xb0, 0x54, 0xbb, 0x16]);
    assert_eq!(INVERSE_BOX[..8], [0x52, 0x09, 0x6a, 0xd5, 0x30, 0x36, 0xa5, 0x38]);
    assert_eq!(INVERSE_BOX[0xf8..], [0xe1, 0x69, 0x14, 0x63, 0x55, 0x21, 0x0c, 0x7d]);
    for x in 0..256usize {
        assert_eq!(INVERSE_BOX[BOX[x] as usize] as usize, x);
        assert_eq!(BOX[INVERSE_BOX[x] as usize] as usize, x);
    }
    // The affine step bit by bit, and the inverse, over the whole table.
    for x in 0..256usize {
        let mut inverse = 0u8;
        for y in 1..=255u8 {
            if times(x as u8, y) == 1 {
                inverse = y;
            }
        }
        let bit = |i: usize| (inverse >> (i % 8)) & 1;
        for i in 0..8 {
            let expected = bit(i) ^ bit(i + 4) ^ bit(i + 5) ^ bit(i + 6) ^ bit(i + 7) ^ ((0x63 >> i) & 1);
            assert_eq!((BOX[x] >> i) & 1, expected);
        }
    }
}
