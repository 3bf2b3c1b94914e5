use crate::{
    label::Label,
    layout::{LABEL, SLOT},
    numbers::BadNumbers,
    word::Word,
};

/// A stack slot, or an operand of a step.
#[derive(Clone, Copy, Debug, Default, PartialEq, Eq, Hash)]
pub struct Slot {
    /// The value.
    pub word: Word,
    /// Where it came from.
    pub label: Label,
}

impl Slot {
    /// A word with a label.
    ///
    /// ```
    /// use argcol::{Arg, Label, Slot, Word};
    ///
    /// assert_eq!(Slot::new(Word::ZERO, Arg::at(0, 1)).label, Label::Arg(Arg::at(0, 1)));
    /// ```
    pub fn new(word: Word, label: impl Into<Label>) -> Self {
        Self { word, label: label.into() }
    }

    /// A word below 2^64 without a label; other words have `Slot::from`.
    ///
    /// ```
    /// use argcol::{Slot, Word};
    ///
    /// assert_eq!(Slot::plain(4), Slot::from(Word::new(4)));
    /// ```
    pub const fn plain(value: u64) -> Self {
        Self { word: Word::new(value), label: Label::None }
    }

    /// The same word with this label, in place of the one that it had.
    ///
    /// ```
    /// use argcol::{Label, Slot, Word};
    ///
    /// assert_eq!(Slot::plain(4).with_label(Label::CallData), Slot::new(Word::new(4), Label::CallData));
    /// ```
    pub fn with_label(self, label: impl Into<Label>) -> Self {
        Self { label: label.into(), ..self }
    }

    /// To numbers that are all 0.
    #[inline]
    pub(crate) fn put(&self, out: &mut [u32; SLOT]) {
        out[..8].copy_from_slice(&self.word.0);
        self.label.put(out.last_chunk_mut().unwrap());
    }

    /// From well-formed numbers.
    #[inline]
    pub(crate) fn read(numbers: &[u32; SLOT]) -> Self {
        Self { word: word(numbers), label: Label::read(numbers.last_chunk().unwrap()) }
    }
}

fn word(numbers: &[u32; SLOT]) -> Word {
    Word(*numbers.first_chunk().unwrap())
}

/// Without a label.
impl From<Word> for Slot {
    fn from(word: Word) -> Self {
        Self { word, label: Label::None }
    }
}

impl From<Slot> for [u32; SLOT] {
    fn from(slot: Slot) -> Self {
        let mut out = [0; SLOT];
        slot.put(&mut out);
        out
    }
}

impl TryFrom<&[u32; SLOT]> for Slot {
    type Error = BadNumbers;

    fn try_from(numbers: &[u32; SLOT]) -> Result<Self, BadNumbers> {
        Ok(Self { word: word(numbers), label: numbers.last_chunk::<LABEL>().unwrap().try_into()? })
    }
}
