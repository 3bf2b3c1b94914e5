//! Plain reads of the numbers that a call is handed.

use crate::clock::repeated;
use std::hint::black_box;

/// A sum that the compiler vectorizes.
fn sum(numbers: &[u32]) -> u32 {
    let (lines, rest) = numbers.as_chunks::<16>();
    let mut sums = [0u32; 16];
    for line in lines {
        for (sum, number) in sums.iter_mut().zip(line) {
            *sum = sum.wrapping_add(*number);
        }
    }
    sums.iter().chain(rest).fold(0, |sum, number| sum.wrapping_add(*number))
}

/// A sum that ends early if it overflows, and so goes one by one; four to a turn, so that the loop itself costs
/// nothing.
#[inline(never)]
fn sum_one_by_one(numbers: &[u32]) -> Option<u64> {
    let (fours, rest) = numbers.as_chunks::<4>();
    let mut sum = 0u64;
    for four in fours {
        for number in four {
            sum = sum.checked_add(u64::from(*number))?;
        }
    }
    for number in rest {
        sum = sum.checked_add(u64::from(*number))?;
    }
    Some(sum)
}

pub struct Reads {
    pub one_by_one: f64,
    pub vectorized: f64,
}

pub fn reads(parts: &[&[u32]]) -> Reads {
    Reads {
        one_by_one: repeated(|| {
            parts.iter().try_fold(0u64, |all, part| sum_one_by_one(black_box(part))?.checked_add(all))
        }),
        vectorized: repeated(|| parts.iter().fold(0u32, |all, part| all.wrapping_add(sum(black_box(part))))),
    }
}
