//! Words of 256 bits, as eight numbers, the highest first.

use super::numbers::ADDRESS;
use crate::core::word_bytes;

/// The number that a word holds, if it is below 2^32.
pub fn small(word: &[u32]) -> Option<u32> {
    word[..7].iter().all(|n| *n == 0).then_some(word[7])
}

/// The sum modulo 2^256.
pub fn sum(word: &[u32], added: u32) -> [u32; 8] {
    let (mut out, mut carry) = ([0; 8], u64::from(added));
    for i in (0..8).rev() {
        carry += u64::from(word[i]);
        out[i] = carry as u32;
        carry >>= 32;
    }
    out
}

/// The type name that a mask stands for, 0 if none: ones from the low end are asked for first, so that all ones are a
/// uint256.
pub fn mask_type(mask: &[u32]) -> u32 {
    let bytes = word_bytes(mask);
    let low = bytes.iter().rev().take_while(|byte| **byte == 0xff).count();
    let high = bytes.iter().take_while(|byte| **byte == 0xff).count();
    if low > 0 && bytes[..32 - low].iter().all(|byte| *byte == 0) {
        if low == 20 { ADDRESS } else { 1000 + 8 * low as u32 }
    } else if high > 0 && bytes[high..].iter().all(|byte| *byte == 0) {
        3000 + high as u32
    } else {
        0
    }
}
