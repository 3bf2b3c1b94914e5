//! The facts about one function's arguments, and the calls on them.

mod close;
mod grow;

use crate::{
    error::Error,
    fact::Facts,
    layout::{MOST_RECORDS, RECORD, STEP},
    memory::Memory,
    raw::{self, Head},
    refused::Refused,
    stack::Stack,
    step::Step,
};
use alloc::{vec, vec::Vec};
use core::{fmt, ops::Range};

/// The facts about one function's arguments, and the calls on them.
///
/// # How many records
///
/// A record is a path that a step has met: an argument, or a part of one. Generated contracts use some 23, and each
/// call reads the whole table, unused records too: a step on 64 records takes some 0.2 µs, and one on 16,384 fifty
/// times as long. So start small and let the session grow, [`Session::growing`] with 64 and [`MOST_RECORDS`]: a call
/// for which too few records are free is then made again on a larger table. The records change no answer, but for
/// [`Refused::NoRoom`].
///
/// # Stack and threads
///
/// A call takes 64 bytes of the calling thread's stack for each level of the facts, beside some 16,000: 1.06 MB at most,
/// for 16,384 records one below the other. Sessions share nothing, and may run side by side.
#[derive(Clone, PartialEq, Eq)]
pub struct Session {
    head: Head,
    /// Sound, with that head: fresh, asked for or left by a call that was taken.
    table: Vec<u32>,
    /// Records up to which the calls let the table grow.
    limit: usize,
}

/// A step was taken.
#[derive(Clone, Debug, PartialEq, Eq, Hash)]
#[non_exhaustive]
pub struct Taken {
    /// The numbers of the records that it made.
    pub made: Range<u32>,
}

impl Session {
    /// A fresh table of so many records, 1 to 16,384, which does not grow by itself: a lone root, the decoder active.
    ///
    /// # Errors
    ///
    /// [`Refused::RecordCount`] for another number of records, and [`Error::Version`].
    ///
    /// ```
    /// let session = argcol::Session::new(64)?;
    /// assert_eq!((session.used(), session.records(), session.active()), (1, 64, true));
    /// # Ok::<(), argcol::Error>(())
    /// ```
    pub fn new(records: usize) -> Result<Self, Error> {
        Error::check_version()?;
        // a count that is too large is refused by the core, at the least table that it refuses
        let table = vec![0; RECORD * records.min(MOST_RECORDS + 1)];
        let mut session = Self { head: Head::default(), table, limit: 0 };
        session.reset()?;
        Ok(session)
    }

    /// A table and a head got in another way.
    ///
    /// # Errors
    ///
    /// [`Refused::RecordCount`] and [`Refused::Unsound`], as the core answers, and [`Error::Version`].
    ///
    /// ```
    /// use argcol::{Refused, Session};
    ///
    /// let session = Session::new(64)?;
    /// let (head, table) = session.clone().into_numbers();
    /// assert_eq!(Session::from_numbers(head, table)?, session);
    /// let damaged = Session::from_numbers(head, vec![7; 11]);
    /// assert_eq!(damaged.unwrap_err().refused(), Some(Refused::Unsound));
    /// # Ok::<(), argcol::Error>(())
    /// ```
    pub fn from_numbers(head: Head, table: Vec<u32>) -> Result<Self, Error> {
        Error::check_version()?;
        let mut session = Self { head, table, limit: 0 };
        // a step of no numbers is refused by 4 if questions 1 to 3 are answered with yes
        match Error::of(raw::step(&mut session.head, &mut session.table, &[], &mut [], &mut [], &[])) {
            Error::Refused(Refused::Sizes) => Ok(session),
            error => Err(error),
        }
    }

    /// The head and the table's numbers, for [`Session::from_numbers`].
    ///
    /// ```
    /// let (head, table) = argcol::Session::new(2)?.into_numbers();
    /// assert_eq!((head.used, head.active, table.len()), (1, 1, 22));
    /// # Ok::<(), argcol::Error>(())
    /// ```
    pub fn into_numbers(self) -> (Head, Vec<u32>) {
        (self.head, self.table)
    }

    /// Takes the fresh call again, on the same table with as many records.
    ///
    /// # Errors
    ///
    /// None for a session that was made.
    ///
    /// ```
    /// let mut session = argcol::Session::new(64)?;
    /// session.reset()?;
    /// assert_eq!(session.used(), 1);
    /// # Ok::<(), argcol::Error>(())
    /// ```
    pub fn reset(&mut self) -> Result<(), Error> {
        Error::check(raw::fresh(&mut self.head, &mut self.table))
    }

    /// The head: the numbers that go along with the table.
    ///
    /// ```
    /// assert_eq!(argcol::Session::new(2)?.head(), argcol::Head::new(1, 1));
    /// # Ok::<(), argcol::Error>(())
    /// ```
    pub fn head(&self) -> Head {
        self.head
    }

    /// How many records are used, the root included.
    ///
    /// ```
    /// assert_eq!(argcol::Session::new(64)?.used(), 1);
    /// # Ok::<(), argcol::Error>(())
    /// ```
    pub fn used(&self) -> u32 {
        self.head.used
    }

    /// Whether the decoder phase lasts.
    ///
    /// ```
    /// assert!(argcol::Session::new(64)?.active());
    /// # Ok::<(), argcol::Error>(())
    /// ```
    pub fn active(&self) -> bool {
        self.head.active == 1
    }

    /// The fact table's numbers, 11 to a record.
    ///
    /// ```
    /// assert_eq!(argcol::Session::new(1)?.table(), [0, 0, 0, 0, 1, 0, 0, 0, 0, 0, 0]);
    /// # Ok::<(), argcol::Error>(())
    /// ```
    pub fn table(&self) -> &[u32] {
        &self.table
    }

    /// The facts: the seen records as values, the root first.
    ///
    /// ```
    /// use argcol::{Memory, Session, Slot, Stack, Step, op};
    ///
    /// let mut session = Session::new(64)?;
    /// let load = Step::new(op::CALLDATALOAD).on(Slot::plain(36));
    /// session.step(&[], &mut Stack::from([Slot::default()]), &mut Memory::new(), &load)?;
    /// let paths: Vec<_> = session.facts().map(|fact| fact.path).collect();
    /// assert_eq!(paths, [vec![], vec![32]]);
    /// # Ok::<(), argcol::Error>(())
    /// ```
    pub fn facts(&self) -> Facts<'_> {
        Facts::new(&self.table, self.head.used)
    }

    /// Takes a step, with the stack and the memory as they are after the opcode ran; it may put labels there, and
    /// words. Both are lent as they stand, and nothing is copied.
    ///
    /// # Errors
    ///
    /// [`Refused::LongCode`] to [`Refused::NoRoom`]; the last only at the limit, for a session that grows.
    ///
    /// ```
    /// use argcol::{Arg, Memory, Session, Slot, Stack, Step, op};
    ///
    /// let mut session = Session::new(64)?;
    /// let mut stack = Stack::from([Slot::plain(5)]);
    /// let load = Step::new(op::CALLDATALOAD).on(Slot::plain(4));
    /// let taken = session.step(&[], &mut stack, &mut Memory::new(), &load)?;
    /// assert_eq!((taken.made, stack.top()), (2..3, Some(Slot::plain(5).with_label(Arg::at(0, 1)))));
    /// # Ok::<(), argcol::Error>(())
    /// ```
    #[inline]
    pub fn step(&mut self, code: &[u8], stack: &mut Stack, memory: &mut Memory, step: &Step) -> Result<Taken, Error> {
        self.step_numbers(code, stack.lend(), memory.lend(), &<[u32; STEP]>::from(step))
    }

    /// Takes a step in numbers, any at all.
    ///
    /// # Errors
    ///
    /// As [`Session::step`].
    ///
    /// ```
    /// use argcol::{Refused, Session};
    ///
    /// let mut session = Session::new(64)?;
    /// assert!(session.step_numbers(&[], &mut [], &mut [], &[0; 59])?.made.is_empty());
    /// let refused = session.step_numbers(&[], &mut [1], &mut [], &[0; 59]).unwrap_err();
    /// assert_eq!(refused.refused(), Some(Refused::Sizes));
    /// # Ok::<(), argcol::Error>(())
    /// ```
    #[inline]
    pub fn step_numbers(
        &mut self,
        code: &[u8],
        stack: &mut [u32],
        memory: &mut [u32],
        step: &[u32],
    ) -> Result<Taken, Error> {
        let used = self.head.used;
        self.call(|head, table| raw::step(head, table, code, stack, memory, step))?;
        Ok(Taken { made: used + 1..self.head.used + 1 })
    }

    /// Makes a call, again on a larger table while too few records are free and the limit lets it grow. A refusal
    /// leaves the table as large as it was.
    #[inline]
    fn call(&mut self, mut call: impl FnMut(&mut Head, &mut [u32]) -> u32) -> Result<(), Error> {
        let numbers = self.table.len();
        loop {
            let number = call(&mut self.head, &mut self.table);
            if number == 0 {
                return Ok(());
            }
            if number != Refused::NoRoom.number() || !self.grows() {
                self.table.truncate(numbers);
                return Err(Error::of(number));
            }
        }
    }
}

/// Short: the facts are shown by [`Session::facts`].
impl fmt::Debug for Session {
    fn fmt(&self, f: &mut fmt::Formatter<'_>) -> fmt::Result {
        let mut shown = f.debug_struct("Session");
        shown.field("used", &self.used()).field("records", &self.records()).field("active", &self.active());
        shown.finish_non_exhaustive()
    }
}
