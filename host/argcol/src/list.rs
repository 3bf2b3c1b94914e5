use crate::{
    closing::Codes,
    error::Error,
    types::{Type, text},
};
use alloc::vec::{self, Vec};
use core::{fmt, slice};

/// A granted list. Its text is what a function's signature has between its parentheses; within parentheses it is that
/// of a tuple, which `alloy_dyn_abi::DynSolType` parses as a whole.
///
/// ```
/// // PUSH1 44 CALLDATASIZE LT: two argument words have to be there
/// let closing = argcol::Session::new(64)?.close(&[0x60, 0x44, 0x36, 0x10], 0, None)?;
/// let list = closing.into_list().unwrap();
/// assert_eq!(list.to_string(), "uint256,uint256");
/// assert_eq!((list.codes(), list.left(), list.head_length()), (&[1256, 1256][..], 8188, 64));
/// for ty in &list {
///     assert_eq!(ty, &argcol::Type::Uint(256));
/// }
/// # Ok::<(), argcol::Error>(())
/// ```
#[derive(Clone, Debug, PartialEq, Eq, Hash)]
pub struct List {
    types: Vec<Type>,
    codes: Vec<u16>,
    left: u32,
    head_length: u32,
}

impl List {
    /// From a granted closing's codes, without what lies beyond them.
    pub(crate) fn new(codes: Vec<u16>, said: &Codes) -> Result<Self, Error> {
        let unknown = Error::Unknown { what: "a list's entries", number: said.entries };
        let types = Type::from_codes(&codes).map_err(|_| unknown)?;
        Ok(Self { types, codes, left: said.left, head_length: said.head_length })
    }

    /// One type for each argument word, from word 0.
    ///
    /// ```
    /// # let list = argcol::Session::new(64)?.close(&[0x60, 0x24, 0x36, 0x10], 0, None)?.into_list().unwrap();
    /// assert_eq!(list.types(), [argcol::Type::Uint(256)]);
    /// # Ok::<(), argcol::Error>(())
    /// ```
    pub fn types(&self) -> &[Type] {
        &self.types
    }

    /// The types alone.
    ///
    /// ```
    /// # let list = argcol::Session::new(64)?.close(&[0x60, 0x24, 0x36, 0x10], 0, None)?.into_list().unwrap();
    /// assert_eq!(list.into_types(), [argcol::Type::Uint(256)]);
    /// # Ok::<(), argcol::Error>(())
    /// ```
    pub fn into_types(self) -> Vec<Type> {
        self.types
    }

    /// The same types as codes.
    ///
    /// ```
    /// # let list = argcol::Session::new(64)?.close(&[0x60, 0x24, 0x36, 0x10], 0, None)?.into_list().unwrap();
    /// assert_eq!(list.codes(), [1256]);
    /// # Ok::<(), argcol::Error>(())
    /// ```
    pub fn codes(&self) -> &[u16] {
        &self.codes
    }

    /// What is left of the budget of 8,192.
    ///
    /// ```
    /// # let list = argcol::Session::new(64)?.close(&[0x60, 0x24, 0x36, 0x10], 0, None)?.into_list().unwrap();
    /// assert_eq!(list.left(), 8190);
    /// # Ok::<(), argcol::Error>(())
    /// ```
    pub fn left(&self) -> u32 {
        self.left
    }

    /// 32 bytes for each entry.
    ///
    /// ```
    /// # let list = argcol::Session::new(64)?.close(&[0x60, 0x24, 0x36, 0x10], 0, None)?.into_list().unwrap();
    /// assert_eq!(list.head_length(), 32);
    /// # Ok::<(), argcol::Error>(())
    /// ```
    pub fn head_length(&self) -> u32 {
        self.head_length
    }
}

/// The canonical text, by the proved text call.
impl fmt::Display for List {
    fn fmt(&self, f: &mut fmt::Formatter<'_>) -> fmt::Result {
        f.pad(&text(&self.codes).map_err(|_| fmt::Error)?)
    }
}

impl<'a> IntoIterator for &'a List {
    type Item = &'a Type;
    type IntoIter = slice::Iter<'a, Type>;

    fn into_iter(self) -> slice::Iter<'a, Type> {
        self.types.iter()
    }
}

impl IntoIterator for List {
    type Item = Type;
    type IntoIter = vec::IntoIter<Type>;

    fn into_iter(self) -> vec::IntoIter<Type> {
        self.types.into_iter()
    }
}
