use crate::{held::held, layout::SLOT, numbers::NoSuchPlace, slot::Slot};
use alloc::vec::Vec;

/// A stack, held as the numbers that the core is lent. Place 0 is the bottom; the top is the last slot.
///
/// ```
/// use argcol::{Slot, Stack};
///
/// let mut stack: Stack = [1, 2, 3].map(Slot::plain).into();
/// assert_eq!(stack.pop(), Some(Slot::plain(3)));
/// assert!(stack.iter().eq([1, 2].map(Slot::plain)));
/// ```
#[derive(Clone, Default, PartialEq, Eq, Hash)]
pub struct Stack {
    /// Labels are well formed: they come from slots, from checked numbers or from a step that was taken.
    slots: Vec<[u32; SLOT]>,
}

impl Stack {
    /// An empty stack.
    ///
    /// ```
    /// assert!(argcol::Stack::new().is_empty());
    /// ```
    pub const fn new() -> Self {
        Self { slots: Vec::new() }
    }

    /// An empty stack with room for so many slots; a step takes 1,024 at most.
    ///
    /// ```
    /// let mut stack = argcol::Stack::with_capacity(1_024);
    /// assert_eq!(stack.len(), 0);
    /// ```
    pub fn with_capacity(slots: usize) -> Self {
        Self { slots: Vec::with_capacity(slots) }
    }

    /// How many slots there are.
    ///
    /// ```
    /// use argcol::{Slot, Stack};
    ///
    /// assert_eq!(Stack::from([Slot::plain(4)]).len(), 1);
    /// ```
    pub fn len(&self) -> usize {
        self.slots.len()
    }

    /// Whether there is none.
    ///
    /// ```
    /// use argcol::{Slot, Stack};
    ///
    /// assert!(!Stack::from([Slot::plain(4)]).is_empty());
    /// ```
    pub fn is_empty(&self) -> bool {
        self.slots.is_empty()
    }

    /// Puts a slot on top.
    ///
    /// ```
    /// use argcol::{Slot, Stack};
    ///
    /// let mut stack = Stack::new();
    /// stack.push(Slot::plain(4));
    /// assert_eq!(stack.top(), Some(Slot::plain(4)));
    /// ```
    pub fn push(&mut self, slot: Slot) {
        self.slots.push(slot.into());
    }

    /// Takes the top off.
    ///
    /// ```
    /// use argcol::{Slot, Stack};
    ///
    /// let mut stack = Stack::from([Slot::plain(4)]);
    /// assert_eq!((stack.pop(), stack.pop()), (Some(Slot::plain(4)), None));
    /// ```
    pub fn pop(&mut self) -> Option<Slot> {
        self.slots.pop().map(|numbers| Slot::read(&numbers))
    }

    /// The top.
    ///
    /// ```
    /// use argcol::{Slot, Stack};
    ///
    /// assert_eq!(Stack::from([Slot::plain(4), Slot::plain(5)]).top(), Some(Slot::plain(5)));
    /// ```
    pub fn top(&self) -> Option<Slot> {
        self.slots.last().map(Slot::read)
    }

    /// The slot at a place from the bottom.
    ///
    /// ```
    /// use argcol::{Slot, Stack};
    ///
    /// let stack = Stack::from([Slot::plain(4), Slot::plain(5)]);
    /// assert_eq!((stack.get(0), stack.get(2)), (Some(Slot::plain(4)), None));
    /// ```
    pub fn get(&self, place: usize) -> Option<Slot> {
        self.slots.get(place).map(Slot::read)
    }

    /// Puts a slot in the place of another, from the bottom.
    ///
    /// # Errors
    ///
    /// There is no such place; the stack is as it was.
    ///
    /// ```
    /// use argcol::{Slot, Stack};
    ///
    /// let mut stack = Stack::from([Slot::plain(4)]);
    /// stack.set(0, Slot::plain(5))?;
    /// assert_eq!(stack.top(), Some(Slot::plain(5)));
    /// assert!(stack.set(1, Slot::plain(6)).is_err());
    /// # Ok::<(), argcol::NoSuchPlace>(())
    /// ```
    pub fn set(&mut self, place: usize, slot: Slot) -> Result<(), NoSuchPlace> {
        let there = self.len();
        *self.slots.get_mut(place).ok_or(NoSuchPlace { there })? = slot.into();
        Ok(())
    }

    /// As DUP1 to DUP16 do: a copy of the slot that is `n`th from the top, counted from 1, is put on top.
    ///
    /// # Errors
    ///
    /// There are fewer slots, or `n` is 0; the stack is as it was.
    ///
    /// ```
    /// use argcol::{Slot, Stack};
    ///
    /// let mut stack = Stack::from([Slot::plain(4), Slot::plain(5)]);
    /// stack.dup(2)?;
    /// assert!(stack.iter().eq([4, 5, 4].map(Slot::plain)));
    /// # Ok::<(), argcol::NoSuchPlace>(())
    /// ```
    pub fn dup(&mut self, n: usize) -> Result<(), NoSuchPlace> {
        let place = self.nth_from_top(n)?;
        self.slots.push(self.slots[place]);
        Ok(())
    }

    /// As SWAP1 to SWAP16 do: the top and the slot that is `n` below it are exchanged.
    ///
    /// # Errors
    ///
    /// There are fewer slots; the stack is as it was.
    ///
    /// ```
    /// use argcol::{Slot, Stack};
    ///
    /// let mut stack = Stack::from([Slot::plain(4), Slot::plain(5), Slot::plain(6)]);
    /// stack.swap(2)?;
    /// assert!(stack.iter().eq([6, 5, 4].map(Slot::plain)));
    /// # Ok::<(), argcol::NoSuchPlace>(())
    /// ```
    pub fn swap(&mut self, n: usize) -> Result<(), NoSuchPlace> {
        let place = self.nth_from_top(n.saturating_add(1))?;
        let top = self.len() - 1;
        self.slots.swap(place, top);
        Ok(())
    }

    /// The place that is `n`th from the top, counted from 1.
    fn nth_from_top(&self, n: usize) -> Result<usize, NoSuchPlace> {
        let there = self.len();
        there.checked_sub(n).filter(|_| n > 0).ok_or(NoSuchPlace { there })
    }

    /// Leaves so many slots at most, from the bottom.
    ///
    /// ```
    /// use argcol::{Slot, Stack};
    ///
    /// let mut stack = Stack::from([Slot::plain(4), Slot::plain(5)]);
    /// stack.truncate(1);
    /// assert_eq!(stack.top(), Some(Slot::plain(4)));
    /// ```
    pub fn truncate(&mut self, slots: usize) {
        self.slots.truncate(slots);
    }

    /// Takes all slots off; their room is kept.
    ///
    /// ```
    /// use argcol::{Slot, Stack};
    ///
    /// let mut stack = Stack::from([Slot::plain(4)]);
    /// stack.clear();
    /// assert!(stack.is_empty());
    /// ```
    pub fn clear(&mut self) {
        self.slots.clear();
    }

    /// The slots from the bottom.
    ///
    /// ```
    /// use argcol::{Slot, Stack};
    ///
    /// let stack = Stack::from([Slot::plain(4), Slot::plain(5)]);
    /// assert!(stack.iter().rev().eq([5, 4].map(Slot::plain)));
    /// ```
    pub fn iter(&self) -> Slots<'_> {
        Slots(self.slots.iter())
    }

    /// The numbers, 21 to a slot.
    ///
    /// ```
    /// use argcol::{SLOT, Slot, Stack};
    ///
    /// let stack = Stack::from([Slot::plain(4)]);
    /// assert_eq!((stack.numbers().len(), stack.numbers()[7]), (SLOT, 4));
    /// ```
    pub fn numbers(&self) -> &[u32] {
        self.slots.as_flattened()
    }

    /// What the core is lent; it leaves labels well formed.
    #[inline]
    pub(crate) fn lend(&mut self) -> &mut [u32] {
        self.slots.as_flattened_mut()
    }
}

held!(
    Stack,
    slots,
    Slot,
    SLOT,
    Slots,
    IntoSlots,
    "slots of a stack, from the bottom",
    "a stack is whole slots of 21 numbers"
);
