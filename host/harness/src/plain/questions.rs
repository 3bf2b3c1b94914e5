//! A step's questions 1 to 7, in their order; 8 is asked when the step is done.

use super::{
    labels::is_label,
    soundness::{is_sound, is_table},
    words::small,
};
use crate::core::*;

/// The opcodes whose arms write to the top slot.
const NEEDS_SLOT: [u8; 9] = [0x35, 0x01, 0x02, 0x1b, 0x10, 0x11, 0x16, 0x15, 0x51];

/// Questions 1 to 3, which a step and a closing ask alike.
pub fn first_three(head: Head, table: &[u32], code: &[u8]) -> u32 {
    if !is_table(table) {
        return 1;
    }
    if !is_sound(table, head.used) || head.active > 1 {
        return 2;
    }
    if code.len() > 65_536 {
        return 3;
    }
    0
}

/// The number of the first question that is answered no, 0 if there is none.
pub fn questions(head: Head, table: &[u32], code: &[u8], stack: &[u32], memory: &[u32], step: &[u32]) -> u32 {
    let refused = first_three(head, table, code);
    if refused != 0 {
        return refused;
    }
    let whole = |part: &[u32], width: usize| part.len().is_multiple_of(width) && part.len() / width <= 1024;
    if !whole(stack, SLOT) || !whole(memory, ENTRY) || step.len() != STEP {
        return 4;
    }
    let labels = stack.chunks(SLOT).map(|slot| &slot[8..]).chain(memory.chunks(ENTRY).map(|entry| &entry[2..]));
    let mut labels = labels.chain([&step[10..23], &step[31..44], &step[46..59]]);
    if !labels.all(|label| is_label(label, head.used)) || memory.chunks(ENTRY).any(|entry| entry[1] > 1) {
        return 5;
    }
    let (op, pick, flag) = (step[0], step[44], step[45]);
    if op > 255
        || pick as usize > memory.len() / ENTRY
        || flag > 1
        || (flag == 1) != (step[46] != 0)
        || op == 0x37 && small(&step[23..31]).is_none()
    {
        return 6;
    }
    if NEEDS_SLOT.contains(&(op as u8)) && stack.is_empty() {
        return 7;
    }
    0
}
