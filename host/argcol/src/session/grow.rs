use super::Session;
use crate::{
    error::Error,
    layout::{MOST_RECORDS, RECORD},
    refused::Refused,
};

impl Session {
    /// A fresh table that grows: where a step or a closing finds too few records free, the table is doubled, up to so
    /// many records, and the call made again. It answers as on a table that had them from the start.
    ///
    /// # Errors
    ///
    /// [`Refused::RecordCount`] if either number is not 1 to 16,384, and [`Error::Version`].
    ///
    /// ```
    /// use argcol::{MOST_RECORDS, Memory, Session, Slot, Stack, Step, op};
    ///
    /// let mut session = Session::growing(1, MOST_RECORDS)?;
    /// let load = Step::new(op::CALLDATALOAD).on(Slot::plain(4));
    /// session.step(&[], &mut Stack::from([Slot::default()]), &mut Memory::new(), &load)?;
    /// assert_eq!((session.used(), session.records()), (2, 2));
    /// # Ok::<(), argcol::Error>(())
    /// ```
    pub fn growing(records: usize, limit: usize) -> Result<Self, Error> {
        if !(1..=MOST_RECORDS).contains(&limit) {
            return Err(Refused::RecordCount.into());
        }
        Ok(Self { limit, ..Self::new(records)? })
    }

    /// How many records the table has, used or not.
    ///
    /// ```
    /// assert_eq!(argcol::Session::new(64)?.records(), 64);
    /// # Ok::<(), argcol::Error>(())
    /// ```
    pub fn records(&self) -> usize {
        self.table.len() / RECORD
    }

    /// Lets the table have so many records at least; the facts stay.
    ///
    /// # Errors
    ///
    /// [`Refused::RecordCount`] for more than 16,384; the session is as it was.
    ///
    /// ```
    /// let mut session = argcol::Session::new(64)?;
    /// session.grow(128)?;
    /// session.grow(2)?;
    /// assert_eq!(session.records(), 128);
    /// # Ok::<(), argcol::Error>(())
    /// ```
    pub fn grow(&mut self, records: usize) -> Result<(), Error> {
        if records > MOST_RECORDS {
            return Err(Refused::RecordCount.into());
        }
        // unused records are zero
        let numbers = self.table.len().max(RECORD * records);
        self.table.resize(numbers, 0);
        Ok(())
    }

    /// Doubles the table within the limit, and tells whether it grew.
    #[cold]
    pub(super) fn grows(&mut self) -> bool {
        let records = self.records();
        self.grow((2 * records).min(self.limit)).is_ok() && self.records() > records
    }
}
