//! Words as text: decimal, and hex behind `0x`.

use super::Word;
use alloc::string::String;
use core::{
    fmt::{self, Write},
    str::FromStr,
};

/// In decimal.
impl fmt::Display for Word {
    fn fmt(&self, f: &mut fmt::Formatter<'_>) -> fmt::Result {
        // nine digits at a time, from the lowest
        let (mut word, mut parts, mut count) = (*self, [0; 9], 0);
        while word != Word::ZERO {
            parts[count] = divide(&mut word, 1_000_000_000);
            count += 1;
        }
        let mut digits = String::new();
        for part in parts[..count.max(1)].iter().rev() {
            if digits.is_empty() { write!(digits, "{part}")? } else { write!(digits, "{part:09}")? }
        }
        f.pad_integral(true, "", &digits)
    }
}

/// Without leading zeros; `{:#x}` puts `0x` ahead.
impl fmt::LowerHex for Word {
    fn fmt(&self, f: &mut fmt::Formatter<'_>) -> fmt::Result {
        let mut digits = String::new();
        self.0.iter().try_for_each(|number| write!(digits, "{number:08x}"))?;
        f.pad_integral(true, "0x", significant(&digits))
    }
}

/// Without leading zeros; `{:#X}` puts `0x` ahead.
impl fmt::UpperHex for Word {
    fn fmt(&self, f: &mut fmt::Formatter<'_>) -> fmt::Result {
        let mut digits = String::new();
        self.0.iter().try_for_each(|number| write!(digits, "{number:08X}"))?;
        f.pad_integral(true, "0x", significant(&digits))
    }
}

fn significant(digits: &str) -> &str {
    let digits = digits.trim_start_matches('0');
    if digits.is_empty() { "0" } else { digits }
}

/// Divides a word, and gives what is over.
fn divide(word: &mut Word, by: u32) -> u32 {
    let mut over = 0;
    for number in &mut word.0 {
        let value = u64::from(over) << 32 | u64::from(*number);
        *number = (value / u64::from(by)) as u32;
        over = (value % u64::from(by)) as u32;
    }
    over
}

/// The word times a base plus a digit, if it is below 2^256.
fn extend(word: Word, base: u32, digit: u32) -> Option<Word> {
    let (mut word, mut carry) = (word, u64::from(digit));
    for number in word.0.iter_mut().rev() {
        let value = u64::from(*number) * u64::from(base) + carry;
        *number = value as u32;
        carry = value >> 32;
    }
    (carry == 0).then_some(word)
}

/// Decimal, or hex behind `0x`; no sign, no blanks, below 2^256.
impl FromStr for Word {
    type Err = ParseWordError;

    fn from_str(text: &str) -> Result<Self, ParseWordError> {
        let (base, digits) = text.strip_prefix("0x").map_or((10, text), |digits| (16, digits));
        if digits.is_empty() {
            return Err(ParseWordError(Fault::Empty));
        }
        digits.chars().try_fold(Self::ZERO, |word, character| {
            let digit = character.to_digit(base).ok_or(ParseWordError(Fault::Digit))?;
            extend(word, base, digit).ok_or(ParseWordError(Fault::TooLarge))
        })
    }
}

/// Text that is no word.
#[derive(Clone, Copy, Debug, PartialEq, Eq, Hash)]
pub struct ParseWordError(Fault);

#[derive(Clone, Copy, Debug, PartialEq, Eq, Hash)]
enum Fault {
    Empty,
    Digit,
    TooLarge,
}

impl fmt::Display for ParseWordError {
    fn fmt(&self, f: &mut fmt::Formatter<'_>) -> fmt::Result {
        f.pad(match self.0 {
            Fault::Empty => "a word has a digit at least",
            Fault::Digit => "a word is decimal digits, or hex digits behind 0x",
            Fault::TooLarge => "a word is below 2^256",
        })
    }
}

impl core::error::Error for ParseWordError {}
