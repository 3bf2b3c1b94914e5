//! The words of a line of the text form, from the left, and the values that they stand for.

use super::{BadTrace, bad};
use crate::{LABEL, ParseWordError, SLOT, Word};
use alloc::format;
use core::{iter::Peekable, str::SplitWhitespace};

pub(super) struct Words<'a>(Peekable<SplitWhitespace<'a>>);

impl<'a> Words<'a> {
    /// What stands before a comment.
    pub(super) fn of(line: &'a str) -> Self {
        Self(line.split('#').next().unwrap_or_default().split_whitespace().peekable())
    }

    pub(super) fn is_empty(&mut self) -> bool {
        self.0.peek().is_none()
    }

    pub(super) fn next(&mut self) -> Result<&'a str, BadTrace> {
        self.0.next().map_or_else(|| bad("the line ends too early"), Ok)
    }

    pub(super) fn took(&mut self, word: &str) -> bool {
        self.0.next_if_eq(&word).is_some()
    }

    pub(super) fn end(&mut self) -> Result<(), BadTrace> {
        self.0.next().map_or(Ok(()), |word| bad(&format!("`{word}` isn't expected here")))
    }

    pub(super) fn word(&mut self) -> Result<Word, BadTrace> {
        let text = self.next()?;
        text.parse().or_else(|reason: ParseWordError| bad(&format!("`{text}`: {reason}")))
    }

    pub(super) fn number(&mut self) -> Result<u32, BadTrace> {
        let text = self.next()?;
        let value = text.parse::<Word>().ok().and_then(Word::to_u64).and_then(|value| u32::try_from(value).ok());
        value.map_or_else(|| bad(&format!("`{text}` is no number below 2^32, in decimal or in hex behind 0x")), Ok)
    }

    pub(super) fn slot(&mut self) -> Result<[u32; SLOT], BadTrace> {
        let mut out = [0; SLOT];
        out[..8].copy_from_slice(&self.word()?.0);
        out[8..].copy_from_slice(&self.label()?);
        Ok(out)
    }

    pub(super) fn label(&mut self) -> Result<[u32; LABEL], BadTrace> {
        let mut out = [0; LABEL];
        if self.is_empty() {
            return Ok(out);
        }
        match self.next()? {
            "none" => (),
            "numbers" => {
                for number in &mut out {
                    *number = self.number()?;
                }
            }
            "calldata" => out[0] = 1,
            "arg" => self.argument(2, &mut out)?,
            "zero-test" => self.argument(3, &mut out)?,
            other => return bad(&format!("`{other}`: a label is none, calldata, arg, zero-test or numbers")),
        }
        Ok(out)
    }

    fn argument(&mut self, kind: u32, out: &mut [u32; LABEL]) -> Result<(), BadTrace> {
        (out[0], out[1]) = (kind, self.number()?);
        if !self.took("path") {
            return bad("an argument's label has an offset and then `path` and a record's number");
        }
        out[2] = self.number()?;
        if self.took("add") {
            out[3] = self.number()?;
        }
        if self.took("mask") {
            out[4] = 1;
            out[5..].copy_from_slice(&self.word()?.0);
        }
        Ok(())
    }
}
