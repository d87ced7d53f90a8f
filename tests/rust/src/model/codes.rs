//! Codes: their spelling, and how they lie in three lent words.

use super::CODE_BYTES;

/// A to Z, 0 to 9 and hyphen, 1 to 12 bytes, no hyphen at either end.
pub fn spelled(code: &[u8]) -> bool {
    let known = |b: &u8| matches!(b, b'A'..=b'Z' | b'0'..=b'9' | b'-');
    match code {
        [] => false,
        [only] => known(only) && *only != b'-',
        [first, .., last] => {
            code.len() <= CODE_BYTES && code.iter().all(known) && *first != b'-' && *last != b'-'
        }
    }
}

/// Twelve bytes, padded with zeros, as three big-endian words.
pub fn packed(code: &[u8]) -> [u32; 3] {
    let mut wide = 0u128;
    for place in 0..CODE_BYTES {
        wide = wide << 8 | code.get(place).copied().unwrap_or(0) as u128;
    }
    [(wide >> 64) as u32, (wide >> 32) as u32, wide as u32]
}

/// The bytes up to the last that isn't zero.
pub fn unpacked(words: &[u32]) -> Vec<u8> {
    let mut bytes: Vec<u8> = words.iter().flat_map(|w| w.to_be_bytes()).collect();
    while bytes.last() == Some(&0) {
        bytes.pop();
    }
    bytes
}
