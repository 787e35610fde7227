//! A reader's check of a found answer in plain Rust, over the plain SHA-256: what the library's is compared with.
use crate::sha256::sha256;

pub fn hmac(key: &[u8; 32], message: &[u8]) -> [u8; 32] {
    let mut inner = vec![0x36u8; 64];
    let mut outer = vec![0x5cu8; 64];
    for i in 0..32 {
        inner[i] ^= key[i];
        outer[i] ^= key[i];
    }
    inner.extend_from_slice(message);
    outer.extend_from_slice(&sha256(&inner));
    sha256(&outer)
}

fn same(a: &[u8], b: &[u8]) -> bool {
    a.len() == b.len() && a.iter().zip(b).fold(0, |all, (x, y)| all | (x ^ y)) == 0
}

/// The refusal's number, or 0, for queue 0.
pub fn check_found(identity: &[u8; 8], key: &[u8; 32], position: u32, answer: &[u8]) -> u32 {
    let [kind, count, length, rest @ ..] = answer else { return 16 };
    if answer.len() != 3 + 81 * *count as usize + if *kind == 1 || *kind == 5 { 32 + *length as usize } else { 0 } {
        return 16;
    }
    if *kind != 1 || *count != 1 || *length > 200 {
        return 17;
    }
    let (statement, tag, previous, text) = (&rest[..49], &rest[49..81], &rest[81..113], &rest[113..]);
    if !same(&hmac(key, statement), tag) {
        return 18;
    }
    if !same(&statement[..8], identity) || statement[8] != 1 {
        return 19;
    }
    let (old, new) = (&statement[9..13], &statement[13..17]);
    if old >= new || new != position.to_be_bytes() {
        return 21;
    }
    let input = [&[0u8], old, new, previous, text].concat();
    if !same(&sha256(&input), &statement[17..]) {
        return 22;
    }
    0
}
