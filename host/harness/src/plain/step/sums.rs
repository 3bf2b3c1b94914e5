//! ADD, of two arguments or of one with a constant.

use super::Run;
use crate::plain::{
    labels::{Arg, arg_label},
    numbers::ARG,
    words::{small, sum},
};

impl Run<'_> {
    pub fn add(&mut self) {
        if let (Some(first), Some(second)) = (self.arg(0), self.arg(1)) {
            self.add_arguments(first, second);
        } else if let Some((arg, other)) = self.first(|_| true) {
            self.add_constant(arg, other);
        }
    }

    fn add_arguments(&mut self, first: Arg, second: Arg) {
        self.mark(first);
        self.mark(second);
        if let Some(added) = first.added.checked_add(second.added) {
            let wins = if self.facts.depth(first.path) > self.facts.depth(second.path) { first } else { second };
            self.put_label(arg_label(ARG, Arg { added, ..wins }));
        }
    }

    fn add_constant(&mut self, arg: Arg, other: usize) {
        self.mark(arg);
        if arg.offset == 0
            && arg.added == 0
            && arg.path != 1
            && self.words[1 - other] == [0; 8]
            && self.words[other] == [u32::MAX; 8]
        {
            self.put_word(0);
        }
        if let Some(added) = small(&sum(&self.words[other], arg.added)) {
            self.put_label(arg_label(ARG, Arg { added, ..arg }));
        }
    }
}
