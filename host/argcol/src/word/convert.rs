//! Words from and to integers and bytes.

use super::Word;
use core::num::TryFromIntError;

impl From<u128> for Word {
    fn from(value: u128) -> Self {
        Self([0, 0, 0, 0, (value >> 96) as u32, (value >> 64) as u32, (value >> 32) as u32, value as u32])
    }
}

impl TryFrom<Word> for u128 {
    type Error = TryFromIntError;

    fn try_from(word: Word) -> Result<Self, TryFromIntError> {
        let [high @ .., a, b, c, d] = word.0;
        // an integer's own error, which only its own conversions make
        high.iter().try_for_each(|number| u8::try_from(u64::from(*number) << 8).map(drop))?;
        Ok([a, b, c, d].into_iter().fold(0, |value, number| value << 32 | u128::from(number)))
    }
}

macro_rules! unsigned {
    ($($int:ty)*) => {$(
        impl From<$int> for Word {
            fn from(value: $int) -> Self {
                Self::new(value as u64)
            }
        }

        impl TryFrom<Word> for $int {
            type Error = TryFromIntError;

            fn try_from(word: Word) -> Result<Self, TryFromIntError> {
                u128::try_from(word)?.try_into()
            }
        }
    )*};
}

unsigned!(u8 u16 u32 u64 usize);

macro_rules! signed {
    ($($int:ty)*) => {$(
        /// Of a value that is not negative.
        impl TryFrom<$int> for Word {
            type Error = TryFromIntError;

            fn try_from(value: $int) -> Result<Self, TryFromIntError> {
                Ok(u128::try_from(value)?.into())
            }
        }
    )*};
}

signed!(i8 i16 i32 i64 i128 isize);

/// 1 for true, 0 for false.
impl From<bool> for Word {
    fn from(value: bool) -> Self {
        Self::new(value as u64)
    }
}

impl From<[u32; 8]> for Word {
    fn from(numbers: [u32; 8]) -> Self {
        Self(numbers)
    }
}

impl From<Word> for [u32; 8] {
    fn from(word: Word) -> Self {
        word.0
    }
}

/// From 32 bytes, highest first, as the EVM has them.
impl From<[u8; 32]> for Word {
    fn from(bytes: [u8; 32]) -> Self {
        Self(core::array::from_fn(|i| u32::from_be_bytes(core::array::from_fn(|j| bytes[4 * i + j]))))
    }
}

/// To 32 bytes, highest first.
impl From<Word> for [u8; 32] {
    fn from(word: Word) -> Self {
        core::array::from_fn(|i| word.0[i / 4].to_be_bytes()[i % 4])
    }
}
