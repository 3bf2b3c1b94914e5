use crate::{
    label::Label,
    layout::{ENTRY, LABEL},
    numbers::BadNumbers,
};

/// A memory entry.
#[derive(Clone, Copy, Debug, Default, PartialEq, Eq, Hash)]
pub struct Entry {
    /// Its place in memory, in bytes.
    pub offset: u32,
    /// Its bytes became the 32-byte word 1.
    pub replaced: bool,
    /// Where its bytes came from.
    pub label: Label,
}

impl Entry {
    /// An entry at a place in memory, not replaced.
    ///
    /// ```
    /// use argcol::{Entry, Label};
    ///
    /// let entry = Entry::at(64, Label::CallData);
    /// assert_eq!((entry.offset, entry.replaced, entry.label), (64, false, Label::CallData));
    /// ```
    pub fn at(offset: u32, label: impl Into<Label>) -> Self {
        Self { offset, replaced: false, label: label.into() }
    }

    /// From well-formed numbers.
    #[inline]
    pub(crate) fn read(numbers: &[u32; ENTRY]) -> Self {
        let label = Label::read(numbers.last_chunk().unwrap());
        Self { offset: numbers[0], replaced: numbers[1] == 1, label }
    }
}

impl From<Entry> for [u32; ENTRY] {
    fn from(entry: Entry) -> Self {
        let mut out = [0; ENTRY];
        (out[0], out[1]) = (entry.offset, u32::from(entry.replaced));
        entry.label.put(out.last_chunk_mut().unwrap());
        out
    }
}

impl TryFrom<&[u32; ENTRY]> for Entry {
    type Error = BadNumbers;

    fn try_from(numbers: &[u32; ENTRY]) -> Result<Self, BadNumbers> {
        if numbers[1] > 1 {
            return Err(BadNumbers("a replaced mark is 0 or 1"));
        }
        let label = numbers.last_chunk::<LABEL>().unwrap().try_into()?;
        Ok(Self { offset: numbers[0], replaced: numbers[1] == 1, label })
    }
}
