//! 256-bit words.

mod convert;
mod text;

pub use text::ParseWordError;

/// A 256-bit word as eight numbers, highest first.
#[derive(Clone, Copy, Debug, Default, PartialEq, Eq, Hash, PartialOrd, Ord)]
pub struct Word(pub [u32; 8]);

impl Word {
    /// 0.
    pub const ZERO: Self = Self([0; 8]);
    /// 2^256 - 1.
    pub const MAX: Self = Self([u32::MAX; 8]);

    /// A word below 2^64. There are conversions from other integers; this one takes a plain literal.
    ///
    /// ```
    /// use argcol::Word;
    ///
    /// assert_eq!(Word::new(4), Word::from(4_u8));
    /// ```
    pub const fn new(value: u64) -> Self {
        Self([0, 0, 0, 0, 0, 0, (value >> 32) as u32, value as u32])
    }

    /// The value, if it is below 2^64.
    ///
    /// ```
    /// use argcol::Word;
    ///
    /// assert_eq!((Word::new(4).to_u64(), Word::MAX.to_u64()), (Some(4), None));
    /// ```
    pub const fn to_u64(self) -> Option<u64> {
        match self.0 {
            [0, 0, 0, 0, 0, 0, high, low] => Some((high as u64) << 32 | low as u64),
            _ => None,
        }
    }
}
