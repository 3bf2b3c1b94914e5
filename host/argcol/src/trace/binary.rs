//! A trace as the printer's bytes: numbers in little-endian order, as document 01 has them.

use super::{BadTrace, CODE_LIMIT, COUNT_LIMIT, Trace, TraceStep, bad};
use crate::Word;
use alloc::vec::Vec;

struct Bytes<'a>(&'a [u8]);

impl Bytes<'_> {
    fn take(&mut self, count: usize) -> Result<&[u8], BadTrace> {
        let Some((taken, rest)) = self.0.split_at_checked(count) else { return bad("the trace ends too early") };
        self.0 = rest;
        Ok(taken)
    }

    fn number(&mut self) -> Result<u32, BadTrace> {
        Ok(u32::from_le_bytes(self.take(4)?.try_into().unwrap()))
    }

    fn numbers<const N: usize>(&mut self) -> Result<[u32; N], BadTrace> {
        let mut out = [0; N];
        for number in &mut out {
            *number = self.number()?;
        }
        Ok(out)
    }

    fn rows<const N: usize>(&mut self, count: u32) -> Result<Vec<[u32; N]>, BadTrace> {
        (0..count).map(|_| self.numbers()).collect()
    }
}

fn put(out: &mut Vec<u8>, numbers: &[u32]) {
    out.extend(numbers.iter().flat_map(|number| number.to_le_bytes()));
}

impl Trace {
    /// Reads the printer's bytes. The printer takes each step as soon as it has read it, so for bytes that are refused
    /// here it may meet a refused step first, and print that.
    ///
    /// # Errors
    ///
    /// The bytes are not whole, or larger than the printer takes.
    ///
    /// ```
    /// use argcol::trace::Trace;
    ///
    /// assert_eq!(Trace::from_bytes(&[0; 48])?, Trace::default());
    /// assert!(Trace::from_bytes(&[0; 47]).is_err());
    /// # Ok::<(), argcol::trace::BadTrace>(())
    /// ```
    pub fn from_bytes(bytes: &[u8]) -> Result<Self, BadTrace> {
        let mut from = Bytes(bytes);
        let [length, start, flag] = from.numbers()?;
        if length as usize > CODE_LIMIT {
            return bad("the code has more than 24,576 bytes");
        }
        if flag > 1 {
            return bad("the packed flag is above 1");
        }
        let word = Word(from.numbers()?);
        let code = from.take(length as usize)?.to_vec();
        let mut steps = Vec::new();
        for _ in 0..from.number()? {
            let numbers = from.numbers()?;
            let [slots, entries] = from.numbers()?;
            if slots.max(entries) as usize > COUNT_LIMIT {
                return bad("a step has more than 256 slots or entries");
            }
            steps.push(TraceStep { numbers, slots: from.rows(slots)?, entries: from.rows(entries)? });
        }
        if !from.0.is_empty() {
            return bad("there are bytes after the last step");
        }
        Ok(Self { code, start, packed: flag == 1, word, steps })
    }

    /// The printer's bytes.
    ///
    /// ```
    /// assert_eq!(argcol::trace::Trace::default().to_bytes(), [0; 48]);
    /// ```
    pub fn to_bytes(&self) -> Vec<u8> {
        let mut out = Vec::new();
        put(&mut out, &[self.code.len() as u32, self.start, u32::from(self.packed)]);
        put(&mut out, &self.word.0);
        out.extend(&self.code);
        put(&mut out, &[self.steps.len() as u32]);
        for step in &self.steps {
            put(&mut out, &step.numbers);
            put(&mut out, &[step.slots.len() as u32, step.entries.len() as u32]);
            put(&mut out, step.slots.as_flattened());
            put(&mut out, step.entries.as_flattened());
        }
        out
    }
}
