//! SHL and MUL, which tell what a length counts, and the comparisons LT and GT.

use super::Run;
use crate::core::{ENTRY, SLOT};
use crate::plain::{code::guard_failure, labels::Arg, numbers::*, words::small};

impl Run<'_> {
    pub fn shift_left(&mut self) {
        let Some(arg) = self.arg(1) else {
            return;
        };
        let shift = small(&self.words[0]);
        if arg.path == 1 && self.active {
            self.mark(arg);
            if let Some(shift @ 8..=256) = shift
                && shift % 8 == 0
                && guard_failure(self.code, self.pc, true).is_some()
            {
                self.name(arg, 3000 + shift / 8, 20);
            }
        } else if arg.offset == 0 && arg.added == 0 {
            // a product of 2^32 or more is neither a name nor an array mark, as is 0
            self.multiply(arg, 0, shift.filter(|shift| *shift < 32).map(|shift| 1 << shift));
        }
    }

    /// `by` is what the length is multiplied by, if it is below 2^32.
    pub fn multiply(&mut self, arg: Arg, other: usize, by: Option<u32>) {
        self.facts.mark_not_bool(arg.path, 0);
        if let Some(other) = self.arg(other) {
            self.mark(other);
        }
        if arg.path == 1 {
            return;
        }
        let [key, parent, ..] = *self.facts.at(arg.path);
        match by {
            Some(1) => self.facts.set_name(parent, key, BYTES, 10),
            Some(2) => self.facts.set_name(parent, key, STRING, 20),
            Some(by @ 32..=3168) if by % 32 == 0 => {
                self.facts.get_or_create(parent, key);
                self.mark_array(arg.path, by);
            }
            _ => (),
        }
    }

    /// Elements of so many bytes; every copy of the length becomes 1, so that a loop over them is gone through once.
    fn mark_array(&mut self, path: u32, by: u32) {
        let record = self.facts.at_mut(path);
        if record[KIND] != ARRAY || record[COUNT] <= by / 32 {
            (record[KIND], record[COUNT]) = (ARRAY, by / 32);
        }
        let is_length = |label: &[u32]| label[..4] == [ARG, 0, path, 0];
        for slot in self.stack.chunks_mut(SLOT).filter(|slot| is_length(&slot[8..])) {
            slot[..8].copy_from_slice(&[0, 0, 0, 0, 0, 0, 0, 1]);
        }
        for entry in self.memory.chunks_mut(ENTRY).filter(|entry| is_length(&entry[2..])) {
            entry[1] = 1;
        }
        self.put_word(by);
    }

    pub fn compare(&mut self) {
        let length = if self.op == 0x10 { 1 } else { 0 };
        match self.arg(length) {
            Some(arg) if arg.offset == 0 && arg.added == 0 && arg.mask.is_none() => {
                self.mark(arg);
                if matches!(small(&self.words[1 - length]), Some(0 | 31)) {
                    self.put_word(1);
                }
            }
            _ => self.compared(),
        }
    }

    /// The general arm of LT, GT and MUL: a range name stays, and with it the argument is left alone.
    pub fn compared(&mut self) {
        if let Some((arg, _)) = self.first(|_| true) {
            let hinted =
                self.facts.find(arg.path, arg.offset).is_some_and(|found| self.facts.at(found)[CONFIDENCE] == RANGE);
            if !hinted {
                self.mark(arg);
            }
        }
    }
}
