use core::fmt;

/// Numbers that stand for no label, slot, entry, step or type; and why.
#[derive(Clone, Copy, Debug, PartialEq, Eq, Hash)]
pub struct BadNumbers(pub(crate) &'static str);

impl BadNumbers {
    /// What is wrong, in words.
    ///
    /// ```
    /// use argcol::{LABEL, Label};
    ///
    /// assert_eq!(Label::try_from(&[4; LABEL]).unwrap_err().reason(), "a label's kind is 0 to 3");
    /// ```
    pub const fn reason(self) -> &'static str {
        self.0
    }
}

impl fmt::Display for BadNumbers {
    fn fmt(&self, f: &mut fmt::Formatter<'_>) -> fmt::Result {
        f.pad(self.0)
    }
}

impl core::error::Error for BadNumbers {}

/// A stack or a memory has no such place.
#[derive(Clone, Copy, Debug, PartialEq, Eq, Hash)]
#[non_exhaustive]
pub struct NoSuchPlace {
    /// How many slots or entries are there.
    pub there: usize,
}

impl fmt::Display for NoSuchPlace {
    fn fmt(&self, f: &mut fmt::Formatter<'_>) -> fmt::Result {
        write!(f, "there is no such place among {}", self.there)
    }
}

impl core::error::Error for NoSuchPlace {}
