//! Labels, to and from the numbers of document 01.

use crate::{layout::LABEL, numbers::BadNumbers, word::Word};
use alloc::{format, string::String};
use core::fmt;

/// What is known of a value that came out of the call data.
#[derive(Clone, Copy, Debug, PartialEq, Eq, Hash)]
pub struct Arg {
    /// In bytes, from the start of what the path stands for; the root's starts behind the selector.
    pub offset: u32,
    /// A record's number; 1 is the root.
    pub path: u32,
    /// The constant that was added to the value. By 4, the selector's length, an offset becomes a place in the call
    /// data.
    pub added: u32,
    /// The mask that the value was put through, if it was.
    pub mask: Option<Word>,
}

impl Arg {
    /// The argument at an offset of a path: nothing added, no mask.
    ///
    /// ```
    /// let arg = argcol::Arg::at(32, 1);
    /// assert_eq!((arg.offset, arg.path, arg.added, arg.mask), (32, 1, 0, None));
    /// ```
    pub const fn at(offset: u32, path: u32) -> Self {
        Self { offset, path, added: 0, mask: None }
    }

    /// The same with this added value, in place of the one that it had.
    ///
    /// ```
    /// assert_eq!(argcol::Arg::at(0, 1).with_added(4).added, 4);
    /// ```
    pub const fn with_added(self, added: u32) -> Self {
        Self { added, ..self }
    }

    /// The same with this mask, in place of the one that it had.
    ///
    /// ```
    /// use argcol::{Arg, Word};
    ///
    /// assert_eq!(Arg::at(0, 1).masked(Word::new(0xff)).mask, Some(Word::new(255)));
    /// ```
    pub const fn masked(self, mask: Word) -> Self {
        Self { mask: Some(mask), ..self }
    }
}

/// Where a value came from.
#[derive(Clone, Copy, Debug, Default, PartialEq, Eq, Hash)]
pub enum Label {
    /// Nothing is known.
    #[default]
    None,
    /// From the call data, of no known argument.
    CallData,
    /// An argument's value.
    Arg(Arg),
    /// The zero test of an argument.
    ZeroTest(Arg),
}

impl Label {
    /// The argument, if it is the label of one or of its zero test.
    ///
    /// ```
    /// use argcol::{Arg, Label};
    ///
    /// assert_eq!(Label::ZeroTest(Arg::at(0, 1)).arg(), Some(Arg::at(0, 1)));
    /// assert_eq!(Label::CallData.arg(), None);
    /// ```
    pub const fn arg(self) -> Option<Arg> {
        match self {
            Self::Arg(arg) | Self::ZeroTest(arg) => Some(arg),
            Self::None | Self::CallData => None,
        }
    }

    /// To numbers that are all 0.
    #[inline]
    pub(crate) fn put(self, out: &mut [u32; LABEL]) {
        let (kind, arg) = match self {
            Self::None => return,
            Self::CallData => return out[0] = 1,
            Self::Arg(arg) => (2, arg),
            Self::ZeroTest(arg) => (3, arg),
        };
        [out[0], out[1], out[2], out[3]] = [kind, arg.offset, arg.path, arg.added];
        if let Some(mask) = arg.mask {
            out[4] = 1;
            out[5..].copy_from_slice(&mask.0);
        }
    }

    /// From well-formed numbers.
    #[inline]
    pub(crate) fn read(numbers: &[u32; LABEL]) -> Self {
        let [kind, offset, path, added, masked, mask @ ..] = *numbers;
        let arg = Arg { offset, path, added, mask: (masked == 1).then_some(Word(mask)) };
        match kind {
            1 => Self::CallData,
            2 => Self::Arg(arg),
            3 => Self::ZeroTest(arg),
            _ => Self::None,
        }
    }
}

impl From<Arg> for Label {
    fn from(arg: Arg) -> Self {
        Self::Arg(arg)
    }
}

impl From<Label> for [u32; LABEL] {
    fn from(label: Label) -> Self {
        let mut out = [0; LABEL];
        label.put(&mut out);
        out
    }
}

impl TryFrom<&[u32; LABEL]> for Label {
    type Error = BadNumbers;

    fn try_from(numbers: &[u32; LABEL]) -> Result<Self, BadNumbers> {
        let label = Self::read(numbers);
        if numbers[0] > 3 {
            Err(BadNumbers("a label's kind is 0 to 3"))
        } else if <[u32; LABEL]>::from(label) == *numbers {
            Ok(label)
        } else {
            Err(BadNumbers("what a label doesn't use is 0"))
        }
    }
}

/// In the words of the text form of traces.
impl fmt::Display for Label {
    fn fmt(&self, f: &mut fmt::Formatter<'_>) -> fmt::Result {
        let (name, arg) = match self {
            Self::None => return f.pad("none"),
            Self::CallData => return f.pad("calldata"),
            Self::Arg(arg) => ("arg", arg),
            Self::ZeroTest(arg) => ("zero-test", arg),
        };
        let added = if arg.added == 0 { String::new() } else { format!(" add {}", arg.added) };
        let mask = arg.mask.map_or(String::new(), |mask| format!(" mask {mask:#x}"));
        f.pad(&format!("{name} {} path {}{added}{mask}", arg.offset, arg.path))
    }
}
