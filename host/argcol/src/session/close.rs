use super::Session;
use crate::{
    closing::{Closing, Codes, Outcome},
    error::Error,
    layout::TYPES,
    list::List,
    raw::{self, Answered},
    word::Word,
};
use alloc::vec;

impl Session {
    /// Closes: the list of types that the facts give.
    ///
    /// Start is the pc at which the function's own code begins to run; a checked length of the call data is looked for
    /// there. The packed word is the stack's top at the start, if there is one.
    ///
    /// The argument words that such a check asks for are filled in, and these facts stay, whatever the answer is. The
    /// session is not over: steps and closings may follow.
    ///
    /// # Errors
    ///
    /// [`Refused::LongCode`](crate::Refused::LongCode), and [`Refused::NoRoom`](crate::Refused::NoRoom) if the words to
    /// fill in are more than the free records; for a session that grows, at its limit.
    ///
    /// ```
    /// use argcol::{Outcome, Session};
    ///
    /// let mut session = Session::new(64)?;
    /// assert_eq!(session.close(&[], 0, None)?.outcome, Outcome::None);
    /// // PUSH1 44 CALLDATASIZE LT: two argument words have to be there
    /// let closing = session.close(&[0x60, 0x44, 0x36, 0x10], 0, None)?;
    /// assert_eq!(closing.list().map(ToString::to_string).as_deref(), Some("uint256,uint256"));
    /// assert_eq!(session.used(), 3);
    /// # Ok::<(), argcol::Error>(())
    /// ```
    pub fn close(&mut self, code: &[u8], start: u32, packed: Option<Word>) -> Result<Closing, Error> {
        let mut types = vec![0; TYPES];
        let Closing { outcome } = self.close_into(code, start, packed, &mut types)?;
        let outcome = match outcome {
            Outcome::None => Outcome::None,
            Outcome::Over => Outcome::Over,
            Outcome::Granted(codes) => {
                types.truncate(codes.codes);
                Outcome::Granted(List::new(types, &codes)?)
            }
        };
        Ok(Closing { outcome })
    }

    /// Closes, with the codes in a slice of the caller's, 8,192 numbers or more. The answer says how many codes the
    /// list has; what lies beyond them keeps its value. Otherwise as [`Session::close`].
    ///
    /// # Errors
    ///
    /// As [`Session::close`], and [`Refused::ShortTypes`](crate::Refused::ShortTypes).
    ///
    /// ```
    /// use argcol::{Outcome, Session, TYPES};
    ///
    /// let mut types = [0; TYPES];
    /// let closing = Session::new(64)?.close_into(&[0x60, 0x44, 0x36, 0x10], 0, None, &mut types)?;
    /// let Outcome::Granted(codes) = closing.outcome else { panic!("{closing:?}") };
    /// assert_eq!((codes.entries, &types[..codes.codes]), (2, &[1256, 1256][..]));
    /// # Ok::<(), argcol::Error>(())
    /// ```
    pub fn close_into(
        &mut self,
        code: &[u8],
        start: u32,
        packed: Option<Word>,
        types: &mut [u16],
    ) -> Result<Closing<Codes>, Error> {
        let (flag, word) = (u32::from(packed.is_some()), packed.unwrap_or_default());
        let mut said = Answered::default();
        self.call(|head, table| {
            said = raw::closing(head, table, code, start, flag, &word.0, types);
            said.number
        })?;
        Ok(Closing { outcome: outcome(&said, types)? })
    }
}

/// The outcome of a closing that was taken.
fn outcome(said: &Answered, types: &[u16]) -> Result<Outcome<Codes>, Error> {
    match said.kind {
        1 => Ok(Outcome::None),
        2 => Ok(Outcome::Over),
        3 => Ok(Outcome::Granted(Codes::new(said, types)?)),
        number => Err(Error::Unknown { what: "a closing's kind", number }),
    }
}

#[cfg(test)]
mod tests {
    use super::*;

    #[test]
    fn a_kind_is_none_over_granted_or_unknown() {
        let said = |kind| Answered { kind, entries: 1, left: 8190, length: 32, ..Answered::default() };
        assert_eq!(outcome(&said(1), &[1]), Ok(Outcome::None));
        assert_eq!(outcome(&said(2), &[1]), Ok(Outcome::Over));
        assert!(matches!(outcome(&said(3), &[1]), Ok(Outcome::Granted(Codes { entries: 1, codes: 1, .. }))));
        for number in [0, 4, u32::MAX] {
            assert_eq!(outcome(&said(number), &[1]), Err(Error::Unknown { what: "a closing's kind", number }));
        }
        // an array without its element, and an end that is nowhere
        for types in [&[5][..], &[], &[16_386, 1]] {
            assert_eq!(outcome(&said(3), types), Err(Error::Unknown { what: "a list's entries", number: 1 }));
        }
    }
}
