//! Loads from the call data, to the stack or to memory, and from memory.

use super::Run;
use crate::core::ENTRY;
use crate::plain::{
    labels::{Arg, Label, arg_label, value},
    numbers::*,
    words::small,
};

impl Run<'_> {
    pub fn load(&mut self) {
        let on_stack = self.op == 0x35;
        match self.arg(0) {
            Some(arg) => self.load_by_label(on_stack, arg),
            None => self.load_by_word(on_stack),
        }
    }

    fn load_by_word(&mut self, on_stack: bool) {
        if let Some(offset @ 4..=130_047) = small(&self.words[0]) {
            self.facts.get_or_create(1, offset - 4);
            self.land(on_stack, false, arg_label(ARG, Arg { offset: offset - 4, path: 1, added: 0, mask: None }));
        }
    }

    fn load_by_label(&mut self, on_stack: bool, arg: Arg) {
        if arg.added < 4 || !(arg.added - 4).is_multiple_of(32) {
            return;
        }
        let arrays = if arg.added == 4 { 0 } else { 32 * self.facts.arrays(arg.path) };
        let offset = arg.added - 4 - if arrays > arg.added - 4 { 0 } else { arrays };
        let path = self.facts.get_or_create(arg.path, arg.offset);
        let record = self.facts.at_mut(path);
        if record[KIND] == 0 || record[KIND] == DYNAMIC && record[COUNT] <= offset / 32 {
            (record[KIND], record[COUNT]) = (DYNAMIC, offset / 32);
        }
        let length = offset == 0 && record[KIND] == ARRAY;
        if !on_stack && self.pick > 0 {
            self.name(arg, BYTES, 10);
        }
        self.land(on_stack, length, arg_label(ARG, Arg { offset, path, added: 0, mask: None }));
    }

    /// The loaded label goes to the top, or to the picked entry if there is one; a length of an array becomes 1 there.
    fn land(&mut self, on_stack: bool, length: bool, label: Label) {
        if on_stack {
            if length {
                self.put_word(1);
            }
            self.put_label(label);
        } else if self.pick > 0 {
            let entry = &mut self.memory[(self.pick - 1) * ENTRY..self.pick * ENTRY];
            if length {
                entry[1] = 1;
            }
            entry[2..].copy_from_slice(&label);
        }
    }

    pub fn load_memory(&mut self) {
        if let Some(arg) = value(&self.load, ARG) {
            self.put_label(arg_label(ARG, arg));
        }
    }
}
