use crate::{error::Error, list::List, raw::Answered};
use core::fmt;

/// A closing's answer: its outcome, with a [`List`] or, by [`Session::close_into`](crate::Session::close_into), with
/// [`Codes`]. Later versions report more beside the outcome, so that it is not taken apart whole:
///
/// ```compile_fail,E0638
/// let argcol::Closing { outcome } = argcol::Session::new(64)?.close(&[], 0, None)?;
/// # Ok::<(), argcol::Error>(())
/// ```
///
/// ```
/// let argcol::Closing { outcome, .. } = argcol::Session::new(64)?.close(&[], 0, None)?;
/// assert_eq!(outcome, argcol::Outcome::None);
/// # Ok::<(), argcol::Error>(())
/// ```
#[derive(Clone, Debug, PartialEq, Eq, Hash)]
#[non_exhaustive]
pub struct Closing<L = List> {
    /// None, over or granted.
    pub outcome: Outcome<L>,
}

/// What a closing comes to. There are these three, in document 01 and in what is asked for after it.
#[derive(Clone, Debug, PartialEq, Eq, Hash)]
pub enum Outcome<L = List> {
    /// No argument is known.
    None,
    /// Too large to say.
    Over,
    /// The types that the facts give.
    Granted(L),
}

impl<L> Closing<L> {
    /// The list, if one is granted.
    ///
    /// ```
    /// assert!(argcol::Session::new(64)?.close(&[], 0, None)?.list().is_none());
    /// # Ok::<(), argcol::Error>(())
    /// ```
    pub fn list(&self) -> Option<&L> {
        match &self.outcome {
            Outcome::Granted(list) => Some(list),
            Outcome::None | Outcome::Over => None,
        }
    }

    /// The list by value, if one is granted.
    ///
    /// ```
    /// let closing = argcol::Session::new(64)?.close(&[0x60, 0x24, 0x36, 0x10], 0, None)?;
    /// assert_eq!(closing.into_list().unwrap().into_types(), [argcol::Type::Uint(256)]);
    /// # Ok::<(), argcol::Error>(())
    /// ```
    pub fn into_list(self) -> Option<L> {
        match self.outcome {
            Outcome::Granted(list) => Some(list),
            Outcome::None | Outcome::Over => None,
        }
    }
}

/// A granted list whose codes stand at the start of a slice.
#[derive(Clone, Copy, Debug, PartialEq, Eq, Hash)]
#[non_exhaustive]
pub struct Codes {
    /// Types of the list, one for each argument word.
    pub entries: u32,
    /// Codes of the list; what lies beyond them in the slice is as it was.
    pub codes: usize,
    /// What is left of the budget of 8,192.
    pub left: u32,
    /// 32 bytes for each entry.
    pub head_length: u32,
}

impl Codes {
    /// Of a granted closing and its slice.
    pub(crate) fn new(said: &Answered, types: &[u16]) -> Result<Self, Error> {
        let unknown = Error::Unknown { what: "a list's entries", number: said.entries };
        let codes = length(said.entries, types).ok_or(unknown)?;
        Ok(Self { entries: said.entries, codes, left: said.left, head_length: said.length })
    }
}

/// How many codes so many types take. They stand at the start; what lies beyond them isn't read.
fn length(entries: u32, codes: &[u16]) -> Option<usize> {
    let (mut length, mut wanted) = (0, entries as usize);
    while wanted > 0 {
        wanted = wanted - 1 + parts(*codes.get(length)?);
        length += 1;
    }
    Some(length)
}

/// How many types a code calls for.
fn parts(code: u16) -> usize {
    match code {
        5 => 1,
        16384.. => usize::from(code) - 16384,
        _ => 0,
    }
}

/// The trace printer's lines, the last without its end.
impl fmt::Display for Closing {
    fn fmt(&self, f: &mut fmt::Formatter<'_>) -> fmt::Result {
        match &self.outcome {
            Outcome::None => f.pad("none"),
            Outcome::Over => f.pad("over"),
            Outcome::Granted(list) => {
                write!(f, "args {} left {} head {}", list.types().len(), list.left(), list.head_length())?;
                list.types().iter().enumerate().try_for_each(|(word, ty)| write!(f, "\n{word} {ty}"))
            }
        }
    }
}
