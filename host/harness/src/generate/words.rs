//! Words of 256 bits: small numbers, masks and others, most of them beside a limit.

use super::Random;

pub fn word(r: &mut Random) -> [u32; 8] {
    match r.below(16) {
        kind @ (0..=5 | 15) => [0, 0, 0, 0, 0, 0, 0, small(r, kind)],
        kind @ (7 | 8 | 10) => mask(r, kind),
        kind => wide(r, kind),
    }
}

fn small(r: &mut Random, kind: usize) -> u32 {
    match kind {
        0 | 1 => r.pick(&[0, 1, 2, 3, 4, 5, 31, 32, 255, 256, 257]),
        2 => 32 * r.below(102) as u32,
        3 => r.pick(&[130_046, 130_047, 130_048, 130_052, 3168, 3200, 3, 4, 36, 2, 1, 33]),
        4 => 4 + 32 * r.below(6) as u32,
        5 => 8 * r.below(34) as u32,
        _ => r.below(300) as u32,
    }
}

/// Whole bytes of ones from the low end, or from the high end with some bits too many, or any number of low bits.
fn mask(r: &mut Random, kind: usize) -> [u32; 8] {
    let mut word = [0; 8];
    match kind {
        7 => {
            let bytes = 1 + r.below(32);
            (0..bytes).for_each(|i| word[7 - i / 4] |= 0xff << (8 * (i % 4)));
        }
        8 => {
            let bytes = 1 + r.below(32);
            (0..bytes).for_each(|i| word[i / 4] |= 0xff << (24 - 8 * (i % 4)));
            if bytes < 32 && r.one_in(3) {
                word[bytes / 4] |= ((1 << r.below(8)) - 1) << (24 - 8 * (bytes % 4));
            }
        }
        _ => {
            let bits = r.below(257);
            (0..bits).for_each(|bit| word[7 - bit / 32] |= 1 << (bit % 32));
        }
    }
    word
}

fn wide(r: &mut Random, kind: usize) -> [u32; 8] {
    let mut word = [0; 8];
    match kind {
        6 => word = [u32::MAX; 8],
        9 => {
            let bit = r.below(256);
            word[7 - bit / 32] = 1 << (bit % 32);
        }
        11 => word.iter_mut().for_each(|n| *n = r.next() as u32),
        12 => {
            word = [u32::MAX; 8];
            word[7] = u32::MAX - r.below(200) as u32;
        }
        13 => (word[6], word[7]) = (r.below(2) as u32, r.pick(&[0, 8, 160, u32::MAX])),
        _ => (word[r.below(7)], word[7]) = (1, r.pick(&[0, 1, 2, 4, 8, 31, 32, 160])),
    }
    word
}
