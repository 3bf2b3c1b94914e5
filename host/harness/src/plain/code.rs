//! What is read in the code: jump guards, empty reverts, division checks and checked lengths. A place beyond the code
//! reads as nothing.

use crate::core::Closing;

/// A number, its highest byte first.
fn number(bytes: &[u8]) -> usize {
    bytes.iter().fold(0, |n, byte| n << 8 | usize::from(*byte))
}

/// A PUSH1 to PUSH`most` at a place: how many bytes it pushes.
fn pushed(code: &[u8], at: usize, most: u8) -> Option<usize> {
    let op = *code.get(at)?;
    (0x60..0x60 + most).contains(&op).then(|| usize::from(op - 0x5f))
}

/// Where a jump guard at a place goes if the comparison before it fails.
pub fn guard_failure(code: &[u8], pc: usize, less_than: bool) -> Option<usize> {
    let inverted = code.get(pc) == Some(&0x15);
    let at = pc + usize::from(inverted);
    let size = pushed(code, at, 4)?;
    if code.get(at + 1 + size) != Some(&0x57) {
        return None;
    }
    Some(if less_than != inverted { at + 2 + size } else { number(&code[at + 1..at + 1 + size]) })
}

/// Does the guard at a place fail to a revert without data?
pub fn is_empty_revert(code: &[u8], pc: usize, less_than: bool) -> bool {
    let Some(place) = guard_failure(code, pc, less_than).filter(|place| *place <= code.len()) else {
        return false;
    };
    let place = place + usize::from(code.get(place) == Some(&0x5b));
    let forms: [&[u8]; 6] = [
        &[0x5f, 0x5f, 0xfd],
        &[0x5f, 0x80, 0xfd],
        &[0x5f, 0x60, 0, 0xfd],
        &[0x60, 0, 0x5f, 0xfd],
        &[0x60, 0, 0x80, 0xfd],
        &[0x60, 0, 0x60, 0, 0xfd],
    ];
    forms.iter().any(|form| code[place..].starts_with(form))
}

/// ISZERO, ISZERO, PUSH, JUMPI to JUMPDEST, DIV.
pub fn is_division_check(code: &[u8], pc: usize) -> bool {
    let Some(size) = pushed(code, pc, 4) else {
        return false;
    };
    if code.get(pc + 1 + size) != Some(&0x57) {
        return false;
    }
    let target = number(&code[pc + 1..pc + 1 + size]);
    code.get(target) == Some(&0x5b) && code.get(target + 1) == Some(&0x04)
}

/// The least length of the call data that the code at the closing's start asks for, written there or taken from the
/// packed word.
pub fn least_size(code: &[u8], closing: &Closing) -> Option<usize> {
    let start = closing.start as usize;
    let pc = start + usize::from(code.get(start) == Some(&0x5b));
    let bytes = |at: usize| code.get(at..).unwrap_or(&[]);
    if let Some(size) = pushed(code, pc, 4) {
        return bytes(pc + 1 + size).starts_with(&[0x36, 0x10]).then(|| number(&code[pc + 1..pc + 1 + size]));
    }
    let packed = closing.packed.filter(|_| code.get(pc) == Some(&0x80))?;
    let size = pushed(code, pc + 1, 3)?;
    if !bytes(pc + 2 + size).starts_with(&[0x16, 0x36, 0x10]) {
        return None;
    }
    let mask = number(&code[pc + 2..pc + 2 + size]);
    (mask == (1 << (8 * size)) - 2).then_some(packed[7] as usize & mask)
}
