use crate::ruint::FromUintError;
use std::{
    cmp::Ordering,
    marker::PhantomData,
    ops::{Add, BitAnd, BitOr, BitXor, Div, Mul, Not, Rem, Shl, Shr, Sub},
};

/// Four limbs, the lowest first.
#[derive(Clone, Copy, Debug, Default, PartialEq, Eq, Hash)]
pub struct U256([u64; 4]);

impl U256 {
    pub const ZERO: Self = Self([0; 4]);
    pub const ONE: Self = Self([1, 0, 0, 0]);
    pub const MAX: Self = Self([u64::MAX; 4]);
    pub const BITS: usize = 256;

    pub const fn from_literal(text: &str) -> Self {
        let bytes = text.as_bytes();
        let (mut value, mut i) = (0u64, 0);
        while i < bytes.len() && bytes[i].is_ascii_digit() {
            value = value * 10 + (bytes[i] - b'0') as u64;
            i += 1;
        }
        assert!(
            i > 0 && bytes.len() == i + 5 && bytes[i] == b'_' && bytes[i + 1] == b'U',
            "a decimal literal with _U256 behind it"
        );
        Self([value, 0, 0, 0])
    }

    #[inline]
    pub const fn from_limbs(limbs: [u64; 4]) -> Self {
        Self(limbs)
    }

    // The conversions below go by whole limbs, as in the crate: they are inside what the benchmarks time.

    #[inline]
    pub const fn to_le_bytes(self) -> [u8; 32] {
        let mut bytes = [0; 32];
        let [a, b, c, d] = bytes.as_chunks_mut().0 else { unreachable!() };
        (*a, *b, *c, *d) =
            (self.0[0].to_le_bytes(), self.0[1].to_le_bytes(), self.0[2].to_le_bytes(), self.0[3].to_le_bytes());
        bytes
    }

    #[inline]
    pub const fn to_be_bytes(self) -> [u8; 32] {
        self.swapped().to_le_bytes()
    }

    #[inline]
    pub const fn from_le_bytes(bytes: [u8; 32]) -> Self {
        let [a, b, c, d] = bytes.as_chunks().0 else { unreachable!() };
        Self([u64::from_le_bytes(*a), u64::from_le_bytes(*b), u64::from_le_bytes(*c), u64::from_le_bytes(*d)])
    }

    #[inline]
    pub const fn from_be_bytes(bytes: [u8; 32]) -> Self {
        Self::from_le_bytes(bytes).swapped()
    }

    /// The bytes in the other order.
    #[inline]
    const fn swapped(self) -> Self {
        let [a, b, c, d] = self.0;
        Self([d.swap_bytes(), c.swap_bytes(), b.swap_bytes(), a.swap_bytes()])
    }

    #[inline]
    pub const fn is_zero(&self) -> bool {
        self.0[0] | self.0[1] | self.0[2] | self.0[3] == 0
    }

    #[inline]
    pub const fn bit(&self, at: usize) -> bool {
        at < 256 && self.0[at / 64] >> (at % 64) & 1 == 1
    }

    #[inline]
    pub fn leading_zeros(&self) -> usize {
        256 - self.bit_len()
    }

    #[inline]
    pub fn bit_len(&self) -> usize {
        (0..4).rev().find(|&i| self.0[i] != 0).map_or(0, |i| 64 * i + 64 - self.0[i].leading_zeros() as usize)
    }

    /// The number as another type; it has to fit.
    pub fn to<T: TryFrom<Self>>(self) -> T {
        T::try_from(self).ok().expect("fits")
    }

    #[inline]
    pub(crate) fn shifted_up(self, by: usize) -> Self {
        let mut out = [0; 4];
        if by < 256 {
            for i in by / 64..4 {
                let from = i - by / 64;
                out[i] = self.0[from] << (by % 64);
                if !by.is_multiple_of(64) && from > 0 {
                    out[i] |= self.0[from - 1] >> (64 - by % 64);
                }
            }
        }
        Self(out)
    }

    #[inline]
    pub(crate) fn shifted_down(self, by: usize) -> Self {
        let mut out = [0; 4];
        if by < 256 {
            for i in 0..4 - by / 64 {
                let from = i + by / 64;
                out[i] = self.0[from] >> (by % 64);
                if !by.is_multiple_of(64) && from < 3 {
                    out[i] |= self.0[from + 1] << (64 - by % 64);
                }
            }
        }
        Self(out)
    }

    #[inline]
    fn added(self, other: Self) -> (Self, bool) {
        let (mut out, mut carry) = ([0; 4], false);
        for i in 0..4 {
            let (sum, first) = self.0[i].overflowing_add(other.0[i]);
            let (sum, second) = sum.overflowing_add(u64::from(carry));
            (out[i], carry) = (sum, first || second);
        }
        (Self(out), carry)
    }

    /// Quotient and remainder; the divisor is not zero.
    pub fn div_rem(self, by: Self) -> (Self, Self) {
        assert!(!by.is_zero(), "division by zero");
        let (mut quotient, mut rest) = (Self::ZERO, Self::ZERO);
        for at in (0..self.bit_len()).rev() {
            let out = rest.bit(255);
            rest = rest.shifted_up(1) | Self::from(self.bit(at));
            if out || rest >= by {
                rest = rest - by;
                quotient.0[at / 64] |= 1 << (at % 64);
            }
        }
        (quotient, rest)
    }

    pub fn pow(self, exponent: Self) -> Self {
        let (mut out, mut square) = (Self::ONE, self);
        for at in 0..exponent.bit_len() {
            if exponent.bit(at) {
                out = out * square;
            }
            square = square * square;
        }
        out
    }

    /// The sum modulo a number, 0 for the modulus 0.
    pub fn add_mod(self, other: Self, modulus: Self) -> Self {
        if modulus.is_zero() {
            return Self::ZERO;
        }
        let (a, b) = (self % modulus, other % modulus);
        let (sum, carry) = a.added(b);
        if carry || sum >= modulus { sum - modulus } else { sum }
    }

    /// The product modulo a number, 0 for the modulus 0.
    pub fn mul_mod(self, other: Self, modulus: Self) -> Self {
        if modulus.is_zero() {
            return Self::ZERO;
        }
        let mut out = Self::ZERO;
        for at in (0..other.bit_len()).rev() {
            out = out.add_mod(out, modulus);
            if other.bit(at) {
                out = out.add_mod(self, modulus);
            }
        }
        out
    }
}

impl PartialOrd for U256 {
    #[inline]
    fn partial_cmp(&self, other: &Self) -> Option<Ordering> {
        Some(self.cmp(other))
    }
}

impl Ord for U256 {
    #[inline]
    fn cmp(&self, other: &Self) -> Ordering {
        self.0.iter().rev().cmp(other.0.iter().rev())
    }
}

impl Add for U256 {
    type Output = Self;

    #[inline]
    fn add(self, other: Self) -> Self {
        self.added(other).0
    }
}

impl Sub for U256 {
    type Output = Self;

    #[inline]
    fn sub(self, other: Self) -> Self {
        self + !other + Self::ONE
    }
}

impl Mul for U256 {
    type Output = Self;

    #[inline]
    fn mul(self, other: Self) -> Self {
        let mut out = [0u64; 4];
        for i in 0..4 {
            let mut carry = 0u128;
            for j in 0..4 - i {
                let sum = u128::from(self.0[i]) * u128::from(other.0[j]) + u128::from(out[i + j]) + carry;
                out[i + j] = sum as u64;
                carry = sum >> 64;
            }
        }
        Self(out)
    }
}

impl Div for U256 {
    type Output = Self;

    fn div(self, other: Self) -> Self {
        self.div_rem(other).0
    }
}

impl Rem for U256 {
    type Output = Self;

    fn rem(self, other: Self) -> Self {
        self.div_rem(other).1
    }
}

impl Not for U256 {
    type Output = Self;

    #[inline]
    fn not(self) -> Self {
        Self(self.0.map(|limb| !limb))
    }
}

macro_rules! by_limbs {
    ($trait:ident, $method:ident, $op:tt) => {
        impl $trait for U256 {
            type Output = Self;

            #[inline]
            fn $method(self, other: Self) -> Self {
                Self(std::array::from_fn(|i| self.0[i] $op other.0[i]))
            }
        }
    };
}
by_limbs!(BitAnd, bitand, &);
by_limbs!(BitOr, bitor, |);
by_limbs!(BitXor, bitxor, ^);

macro_rules! shifts {
    ($($t:ty),*) => {
        $(
            impl Shl<$t> for U256 {
                type Output = Self;

                #[inline]
                fn shl(self, by: $t) -> Self {
                    self.shifted_up(usize::try_from(by).unwrap_or(256))
                }
            }

            impl Shr<$t> for U256 {
                type Output = Self;

                #[inline]
                fn shr(self, by: $t) -> Self {
                    self.shifted_down(usize::try_from(by).unwrap_or(256))
                }
            }
        )*
    };
}
shifts!(usize, i32, U256);

macro_rules! narrow {
    ($($t:ty),*) => {
        $(
            impl From<$t> for U256 {
                #[inline]
                fn from(value: $t) -> Self {
                    Self([value as u64, 0, 0, 0])
                }
            }

            impl TryFrom<U256> for $t {
                type Error = FromUintError<$t>;

                #[inline]
                fn try_from(value: U256) -> Result<Self, Self::Error> {
                    match value.0 {
                        [low, 0, 0, 0] => low.try_into().map_err(|_| FromUintError(PhantomData)),
                        _ => Err(FromUintError(PhantomData)),
                    }
                }
            }
        )*
    };
}
narrow!(u8, u16, u32, u64, usize);

impl From<bool> for U256 {
    #[inline]
    fn from(value: bool) -> Self {
        Self([u64::from(value), 0, 0, 0])
    }
}

/// For literals without a suffix.
impl From<i32> for U256 {
    #[inline]
    fn from(value: i32) -> Self {
        Self::from(u32::try_from(value).expect("no negative number"))
    }
}
