//! A step that is taken: the hints, the range rule and the end of the decoder phase, then the one arm of its opcode.

mod hints;
mod lengths;
mod loads;
mod names;
mod sums;

use super::{
    facts::Facts,
    labels::{Arg, Label, value},
    numbers::ARG,
    words::small,
};
use crate::core::*;

/// The opcodes that end the decoder phase, besides LOG0 to LOG4.
const STOP_LIST: [u8; 16] =
    [0x54, 0x55, 0x5c, 0x5d, 0x20, 0x31, 0x3b, 0x3f, 0x3c, 0xf1, 0xf2, 0xf4, 0xfa, 0xf0, 0xf5, 0xff];

/// The step's numbers taken apart, with what it changes. All is worked out on copies, since a step that needs more
/// records than there are changes nothing.
struct Run<'a> {
    facts: Facts,
    active: bool,
    code: &'a [u8],
    stack: Vec<u32>,
    memory: Vec<u32>,
    op: u8,
    pc: usize,
    words: [[u32; 8]; 2],
    labels: [Label; 2],
    pick: usize,
    load: Label,
}

/// Takes the step. The answer is 8 if it needs more records than the table has, which shows when its work is done, else
/// 0.
pub fn step(
    head: &mut Head,
    table: &mut [u32],
    code: &[u8],
    stack: &mut [u32],
    memory: &mut [u32],
    step: &[u32],
) -> u32 {
    let mut run = Run {
        facts: Facts::read(table, head.used),
        active: head.active == 1,
        code,
        stack: stack.to_vec(),
        memory: memory.to_vec(),
        op: step[0] as u8,
        pc: step[1] as usize,
        words: [step[2..10].try_into().unwrap(), step[23..31].try_into().unwrap()],
        labels: [step[10..23].try_into().unwrap(), step[31..44].try_into().unwrap()],
        pick: step[44] as usize,
        load: step[46..59].try_into().unwrap(),
    };
    run.step();
    if run.facts.0.len() > table.len() / RECORD {
        return 8;
    }
    stack.copy_from_slice(&run.stack);
    memory.copy_from_slice(&run.memory);
    *head = Head::new(run.facts.0.len() as u32, u32::from(run.active));
    run.facts.write(table);
    0
}

impl Run<'_> {
    fn step(&mut self) {
        self.clear_hints();
        if matches!(self.op, 0x10 | 0x11) && self.active && self.range_rule() {
            return;
        }
        if STOP_LIST.contains(&self.op) || (0xa0..=0xa4).contains(&self.op) {
            self.active = false;
        }
        self.arm();
    }

    fn arm(&mut self) {
        match self.op {
            0x35 | 0x37 => self.load(),
            0xf1 | 0xf2 | 0xf4 | 0xfa => self.call(),
            0x01 => self.add(),
            0x1b => self.shift_left(),
            0x02 => match self.first(|arg| arg.offset == 0 && arg.added == 0) {
                Some((arg, other)) => self.multiply(arg, other, small(&self.words[other])),
                None => self.compared(),
            },
            0x10 | 0x11 => self.compare(),
            0x53 => self.store_byte(),
            0x1c => self.shift_right(),
            0x05 | 0x07 => self.divide_signed(),
            0x16 => self.and(),
            0x14 => self.equal(),
            0x15 => self.is_zero(),
            0x0b => self.sign_extend(),
            0x1a => self.byte(),
            0x51 => self.load_memory(),
            _ => (),
        }
    }

    fn arg(&self, i: usize) -> Option<Arg> {
        value(&self.labels[i], ARG)
    }

    /// The first operand that is an argument and meets a test, with the other operand's place.
    fn first(&self, test: impl Fn(Arg) -> bool) -> Option<(Arg, usize)> {
        (0..2).find_map(|i| self.arg(i).filter(|arg| test(*arg)).map(|arg| (arg, 1 - i)))
    }

    fn put_word(&mut self, word: u32) {
        let top = self.stack.len() - SLOT;
        self.stack[top..top + 8].copy_from_slice(&[0, 0, 0, 0, 0, 0, 0, word]);
    }

    fn put_label(&mut self, label: Label) {
        let top = self.stack.len() - LABEL;
        self.stack[top..].copy_from_slice(&label);
    }

    fn mark(&mut self, arg: Arg) {
        self.facts.mark_not_bool(arg.path, arg.offset);
    }

    fn name(&mut self, arg: Arg, name: u32, confidence: u32) {
        self.facts.set_name(arg.path, arg.offset, name, confidence);
    }
}
