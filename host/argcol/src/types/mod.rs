//! ABI types, their codes and their text.

mod text;

pub use text::{text, text_into};

use crate::{layout::TYPES, numbers::BadNumbers};
use alloc::{boxed::Box, vec, vec::Vec};
use core::fmt;

/// An ABI type. A value made by hand may be none, as `Uint(7)`.
///
/// Its text is the canonical name, which other crates read: for alloy's `DynSolType`
///
/// ```text
/// let ty: alloy_dyn_abi::DynSolType = argcol_type.to_string().parse()?;
/// ```
///
/// Comparing, hashing, dropping and showing by `{:?}` call themselves once for each level. A closing's types are
/// shallow; a list of 8,192 codes may be of as many levels, and showing these by `{:?}` takes more than the 2 MB that a
/// thread's stack has by default, if the build isn't optimized.
#[derive(Debug, PartialEq, Eq, Hash)]
pub enum Type {
    /// `bool`.
    Bool,
    /// `address`.
    Address,
    /// `bytes`, of any length.
    Bytes,
    /// `string`.
    String,
    /// `T[]`, of any length.
    Array(Box<Type>),
    /// `uint8` to `uint256`: bits, 8 to 256 in eights.
    Uint(u16),
    /// `int8` to `int256`: bits, 8 to 256 in eights.
    Int(u16),
    /// `bytes1` to `bytes32`: bytes, 1 to 32.
    FixedBytes(u16),
    /// `(a,b)`: two types or more.
    Tuple(Vec<Type>),
}

impl Type {
    /// The types that a list of codes stands for.
    ///
    /// # Errors
    ///
    /// The codes are no whole number of well-formed types or, as for question 10, more than 8,192, which bounds the
    /// depth of what it gives.
    ///
    /// ```
    /// use argcol::Type;
    ///
    /// assert_eq!(Type::from_codes(&[5, 1, 2])?, [Type::Array(Box::new(Type::Bool)), Type::Address]);
    /// assert!(Type::from_codes(&[5]).is_err());
    /// # Ok::<(), argcol::BadNumbers>(())
    /// ```
    pub fn from_codes(codes: &[u16]) -> Result<Vec<Self>, BadNumbers> {
        if codes.len() > TYPES {
            return Err(BadNumbers("a list has at most 8,192 codes"));
        }
        // from the back, where a type's parts are met before it: no depth takes stack
        let mut behind = Vec::new();
        for code in codes.iter().rev() {
            let ty = Self::join(*code, &mut behind)?;
            behind.push(ty);
        }
        behind.reverse();
        Ok(behind)
    }

    /// The type of a code and of the types behind it, of which the next one is last; its parts are taken off these.
    fn join(code: u16, behind: &mut Vec<Self>) -> Result<Self, BadNumbers> {
        const CUT: BadNumbers = BadNumbers("a type's codes are cut short");
        Ok(match code {
            1 => Self::Bool,
            2 => Self::Address,
            3 => Self::Bytes,
            4 => Self::String,
            5 => Self::Array(Box::new(behind.pop().ok_or(CUT)?)),
            1008..=1256 if code.is_multiple_of(8) => Self::Uint(code - 1000),
            2008..=2256 if code.is_multiple_of(8) => Self::Int(code - 2000),
            3001..=3032 => Self::FixedBytes(code - 3000),
            16386.. => {
                let left = behind.len().checked_sub(usize::from(code) - 16384).ok_or(CUT)?;
                Self::Tuple(behind.drain(left..).rev().collect())
            }
            _ => return Err(BadNumbers("no type has this code")),
        })
    }

    /// The codes. A part that is no ABI type, as `Uint(7)`, has 0, which is no code.
    ///
    /// ```
    /// use argcol::Type;
    ///
    /// assert_eq!(Type::Tuple(vec![Type::Bool, Type::Uint(8)]).codes(), [16_386, 1, 1008]);
    /// ```
    pub fn codes(&self) -> Vec<u16> {
        self.all().into_iter().map(Self::code).collect()
    }

    /// The type and its parts down to the innermost, each before its own parts: no depth takes stack.
    fn all(&self) -> Vec<&Self> {
        let (mut out, mut rest) = (Vec::new(), vec![self]);
        while let Some(ty) = rest.pop() {
            out.push(ty);
            match ty {
                Self::Array(inner) => rest.push(inner),
                Self::Tuple(parts) => rest.extend(parts.iter().rev()),
                _ => (),
            }
        }
        out
    }

    /// The first of the codes.
    fn code(&self) -> u16 {
        let fit = |base: u16, fits: bool, width: u16| if fits { base + width } else { 0 };
        match self {
            Self::Bool => 1,
            Self::Address => 2,
            Self::Bytes => 3,
            Self::String => 4,
            Self::Array(_) => 5,
            Self::Uint(bits) => fit(1000, matches!(bits, 8..=256) && bits.is_multiple_of(8), *bits),
            Self::Int(bits) => fit(2000, matches!(bits, 8..=256) && bits.is_multiple_of(8), *bits),
            Self::FixedBytes(bytes) => fit(3000, matches!(bytes, 1..=32), *bytes),
            Self::Tuple(parts) => fit(16384, matches!(parts.len(), 2..TYPES), parts.len() as u16),
        }
    }
}

/// Not the derived one, which calls itself once for each level.
impl Clone for Type {
    fn clone(&self) -> Self {
        // from the back, as `from_codes` does
        let mut behind = Vec::new();
        for ty in self.all().into_iter().rev() {
            let copy = match ty {
                Self::Bool => Self::Bool,
                Self::Address => Self::Address,
                Self::Bytes => Self::Bytes,
                Self::String => Self::String,
                Self::Array(_) => Self::Array(Box::new(behind.pop().expect("its part is behind it"))),
                Self::Uint(bits) => Self::Uint(*bits),
                Self::Int(bits) => Self::Int(*bits),
                Self::FixedBytes(bytes) => Self::FixedBytes(*bytes),
                Self::Tuple(parts) => Self::Tuple(behind.drain(behind.len() - parts.len()..).rev().collect()),
            };
            behind.push(copy);
        }
        behind.pop().expect("the type itself is left")
    }
}

/// The canonical text, by the proved text call. What that call refuses is shown as `Debug` does: a value that is no ABI
/// type, as `Uint(7)`, or one of more than 8,192 codes, which can only be made by hand.
impl fmt::Display for Type {
    fn fmt(&self, f: &mut fmt::Formatter<'_>) -> fmt::Result {
        match text(&self.codes()) {
            Ok(text) => f.pad(&text),
            Err(_) => write!(f, "{self:?}"),
        }
    }
}
