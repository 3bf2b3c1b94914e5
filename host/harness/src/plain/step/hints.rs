//! What comes before the arms: opcodes that take range names away, and the rule that gives them.

use super::Run;
use crate::plain::{code::is_empty_revert, numbers::*, words::small};

impl Run<'_> {
    pub fn clear_hints(&mut self) {
        let args = [self.arg(0), self.arg(1)];
        match self.op {
            0x04 | 0x06 | 0x03 | 0x0a | 0x15 | 0x57 | 0x54 => {
                args.into_iter().flatten().for_each(|arg| self.facts.clear_hint(arg.path, arg.offset, false))
            }
            0x14 if args.iter().all(Option::is_some) => {
                args.into_iter().flatten().for_each(|arg| self.facts.clear_hint(arg.path, arg.offset, true))
            }
            0xfd if self.active => {
                for r in 1..=self.facts.0.len() as u32 {
                    if self.facts.at(r)[CONFIDENCE] == RANGE {
                        self.facts.clear_name(r);
                    }
                }
            }
            _ => (),
        }
    }

    /// A bounds check against a constant, whose failure reverts with nothing, names a uint8. If it holds the step ends
    /// here, whether or not the name went in.
    pub fn range_rule(&mut self) -> bool {
        let (arg, bound, less_than) = match (self.arg(0), self.arg(1)) {
            (Some(arg), None) if self.labels[1][0] == 0 => (arg, self.words[1], self.op == 0x10),
            (None, Some(arg)) if self.labels[0][0] == 0 => (arg, self.words[0], self.op == 0x11),
            _ => return false,
        };
        let bounds = if less_than { 2..=256 } else { 1..=255 };
        let holds = arg.added == 0
            && arg.mask.is_none()
            && (arg.offset != 0 || arg.path == 1)
            && small(&bound).is_some_and(|bound| bounds.contains(&bound))
            && is_empty_revert(self.code, self.pc, less_than);
        if holds {
            self.name(arg, 1008, RANGE);
            let found = self.facts.ensure(arg.path, arg.offset);
            self.facts.at_mut(found)[NOT_BOOL] = 1;
        }
        holds
    }
}
