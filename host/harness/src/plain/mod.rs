//! Document 01 read plainly: the questions one by one, then the step and the closing on records. It knows nothing of
//! speed. The published source has no record numbers and refuses nothing, so this reading decides these.

mod closing;
mod code;
mod facts;
mod labels;
pub mod numbers;
mod questions;
mod soundness;
mod step;
mod text;
mod types;
mod words;

use crate::core::*;

pub struct Plain;

impl Core for Plain {
    fn fresh(&self, head: &mut Head, table: &mut [u32]) -> u32 {
        if !soundness::is_table(table) {
            return 1;
        }
        table.fill(0);
        table[numbers::SEEN] = 1;
        *head = Head::new(1, 1);
        0
    }

    fn step(
        &self,
        head: &mut Head,
        table: &mut [u32],
        code: &[u8],
        stack: &mut [u32],
        memory: &mut [u32],
        step: &[u32],
    ) -> u32 {
        match questions::questions(*head, table, code, stack, memory, step) {
            0 => step::step(head, table, code, stack, memory, step),
            refused => refused,
        }
    }

    fn close(&self, head: &mut Head, table: &mut [u32], code: &[u8], closing: &Closing, types: &mut [u16]) -> Verdict {
        closing::close(head, table, code, closing, types)
    }
}

impl Text for Plain {
    fn text(&self, codes: &[u16], out: &mut [u8]) -> (u32, usize) {
        text::put_text(codes, out)
    }
}
