use crate::{entry::Entry, held::held, layout::ENTRY, numbers::NoSuchPlace};
use alloc::vec::Vec;

/// The entries of a memory, held as the numbers that the core is lent.
///
/// ```
/// use argcol::{Entry, Label, Memory};
///
/// let mut memory = Memory::new();
/// memory.push(Entry::at(64, Label::CallData));
/// assert_eq!(memory.iter().map(|entry| entry.offset).sum::<u32>(), 64);
/// ```
#[derive(Clone, Default, PartialEq, Eq, Hash)]
pub struct Memory {
    /// Labels are well formed: they come from entries, from checked numbers or from a step that was taken.
    entries: Vec<[u32; ENTRY]>,
}

impl Memory {
    /// An empty memory.
    ///
    /// ```
    /// assert!(argcol::Memory::new().is_empty());
    /// ```
    pub const fn new() -> Self {
        Self { entries: Vec::new() }
    }

    /// An empty memory with room for so many entries; a step takes 1,024 at most.
    ///
    /// ```
    /// let mut memory = argcol::Memory::with_capacity(1_024);
    /// assert_eq!(memory.len(), 0);
    /// ```
    pub fn with_capacity(entries: usize) -> Self {
        Self { entries: Vec::with_capacity(entries) }
    }

    /// How many entries there are.
    ///
    /// ```
    /// use argcol::{Entry, Label, Memory};
    ///
    /// assert_eq!(Memory::from([Entry::at(128, Label::None)]).len(), 1);
    /// ```
    pub fn len(&self) -> usize {
        self.entries.len()
    }

    /// Whether there is none.
    ///
    /// ```
    /// use argcol::{Entry, Label, Memory};
    ///
    /// assert!(!Memory::from([Entry::at(128, Label::None)]).is_empty());
    /// ```
    pub fn is_empty(&self) -> bool {
        self.entries.is_empty()
    }

    /// Puts an entry behind the last.
    ///
    /// ```
    /// use argcol::{Entry, Label, Memory};
    ///
    /// let mut memory = Memory::new();
    /// memory.push(Entry::at(128, Label::None));
    /// assert_eq!(memory.iter().last(), Some(Entry::at(128, Label::None)));
    /// ```
    pub fn push(&mut self, entry: Entry) {
        self.entries.push(entry.into());
    }

    /// Takes the last entry off.
    ///
    /// ```
    /// use argcol::{Entry, Label, Memory};
    ///
    /// let mut memory = Memory::from([Entry::at(128, Label::None)]);
    /// assert_eq!((memory.pop(), memory.pop()), (Some(Entry::at(128, Label::None)), None));
    /// ```
    pub fn pop(&mut self) -> Option<Entry> {
        self.entries.pop().map(|numbers| Entry::read(&numbers))
    }

    /// The entry at a place, from 0.
    ///
    /// ```
    /// use argcol::{Entry, Label, Memory};
    ///
    /// let memory = Memory::from([Entry::at(128, Label::None), Entry::at(160, Label::None)]);
    /// assert_eq!((memory.get(0), memory.get(2)), (Some(Entry::at(128, Label::None)), None));
    /// ```
    pub fn get(&self, place: usize) -> Option<Entry> {
        self.entries.get(place).map(Entry::read)
    }

    /// Puts an entry in the place of another.
    ///
    /// # Errors
    ///
    /// There is no such place; the memory is as it was.
    ///
    /// ```
    /// use argcol::{Entry, Label, Memory};
    ///
    /// let mut memory = Memory::from([Entry::at(128, Label::None)]);
    /// memory.set(0, Entry::at(160, Label::None))?;
    /// assert_eq!(memory.get(0), Some(Entry::at(160, Label::None)));
    /// assert!(memory.set(1, Entry::at(192, Label::None)).is_err());
    /// # Ok::<(), argcol::NoSuchPlace>(())
    /// ```
    pub fn set(&mut self, place: usize, entry: Entry) -> Result<(), NoSuchPlace> {
        let there = self.len();
        *self.entries.get_mut(place).ok_or(NoSuchPlace { there })? = entry.into();
        Ok(())
    }

    /// Leaves so many entries at most, the first ones.
    ///
    /// ```
    /// use argcol::{Entry, Label, Memory};
    ///
    /// let mut memory = Memory::from([Entry::at(128, Label::None), Entry::at(160, Label::None)]);
    /// memory.truncate(1);
    /// assert_eq!(memory.iter().last(), Some(Entry::at(128, Label::None)));
    /// ```
    pub fn truncate(&mut self, entries: usize) {
        self.entries.truncate(entries);
    }

    /// Takes all entries off; their room is kept.
    ///
    /// ```
    /// use argcol::{Entry, Label, Memory};
    ///
    /// let mut memory = Memory::from([Entry::at(128, Label::None)]);
    /// memory.clear();
    /// assert!(memory.is_empty());
    /// ```
    pub fn clear(&mut self) {
        self.entries.clear();
    }

    /// The entries in their order.
    ///
    /// ```
    /// use argcol::{Entry, Label, Memory};
    ///
    /// let memory = Memory::from([Entry::at(128, Label::None), Entry::at(160, Label::None)]);
    /// assert_eq!(memory.iter().next_back(), Some(Entry::at(160, Label::None)));
    /// ```
    pub fn iter(&self) -> Entries<'_> {
        Entries(self.entries.iter())
    }

    /// The numbers, 15 to an entry.
    ///
    /// ```
    /// use argcol::{ENTRY, Entry, Label, Memory};
    ///
    /// let memory = Memory::from([Entry::at(128, Label::None)]);
    /// assert_eq!((memory.numbers().len(), memory.numbers()[0]), (ENTRY, 128));
    /// ```
    pub fn numbers(&self) -> &[u32] {
        self.entries.as_flattened()
    }

    /// What the core is lent; it leaves labels well formed.
    #[inline]
    pub(crate) fn lend(&mut self) -> &mut [u32] {
        self.entries.as_flattened_mut()
    }
}

held!(
    Memory,
    entries,
    Entry,
    ENTRY,
    Entries,
    IntoEntries,
    "entries of a memory",
    "a memory is whole entries of 15 numbers"
);
