use crate::U256;
use std::ops::Rem;

/// The same bits, read as two's complement.
#[derive(Clone, Copy, Debug, PartialEq, Eq)]
pub struct I256(U256);

impl I256 {
    pub fn from_raw(bits: U256) -> Self {
        Self(bits)
    }

    pub fn into_raw(self) -> U256 {
        self.0
    }

    fn is_negative(self) -> bool {
        self.0.bit(255)
    }

    fn size(self) -> U256 {
        if self.is_negative() { U256::ZERO - self.0 } else { self.0 }
    }

    fn with_sign(size: U256, negative: bool) -> Self {
        Self(if negative { U256::ZERO - size } else { size })
    }

    /// Rounds to zero; the lowest number divided by -1 is itself.
    pub fn wrapping_div(self, by: Self) -> Self {
        Self::with_sign(self.size() / by.size(), self.is_negative() != by.is_negative())
    }

    pub fn asr(self, by: usize) -> Self {
        let fill = if self.is_negative() { U256::MAX << 256usize.saturating_sub(by) } else { U256::ZERO };
        Self((self.0 >> by) | fill)
    }
}

impl Rem for I256 {
    type Output = Self;

    /// The sign is the dividend's.
    fn rem(self, by: Self) -> Self {
        Self::with_sign(self.size() % by.size(), self.is_negative())
    }
}
