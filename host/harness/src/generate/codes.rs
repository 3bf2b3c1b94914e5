//! Codes, and the places at which a step or a closing reads them.

use super::Random;
use crate::core::Closing;

const REVERTS: [&[u8]; 6] = [
    &[0x5f, 0x5f, 0xfd],
    &[0x5f, 0x80, 0xfd],
    &[0x5f, 0x60, 0, 0xfd],
    &[0x60, 0, 0x5f, 0xfd],
    &[0x60, 0, 0x80, 0xfd],
    &[0x60, 0, 0x60, 0, 0xfd],
];

/// A code of guards, reverts and checked lengths, with the places where a reading may begin.
pub fn code(r: &mut Random) -> (Vec<u8>, Vec<u32>) {
    let (mut code, mut places) = (Vec::new(), Vec::new());
    let targets = targets(r, &mut code);
    for _ in 0..1 + r.below(4) {
        places.push(code.len() as u32);
        match r.below(8) {
            0 | 1 => checked_length(r, &mut code),
            _ => guard(r, &mut code, &targets),
        }
    }
    if r.one_in(6) {
        let at = r.below(code.len());
        code[at] = r.pick(&[0x15, 0x57, 0x5b, 0x60, 0x63, 0x64, 0x5f, 0x80, 0xfd, 0x04, 0x00, 0xff]);
    }
    if r.one_in(6) {
        code.truncate(r.below(code.len() + 1));
    }
    (code, places)
}

/// What guards jump to: reverts, divisions and others, most behind a JUMPDEST.
fn targets(r: &mut Random, code: &mut Vec<u8>) -> Vec<usize> {
    let mut targets = vec![0];
    for _ in 0..1 + r.below(4) {
        targets.push(code.len());
        if r.one_in(2) {
            code.push(0x5b);
        }
        match r.below(4) {
            0 if r.one_in(3) => code.extend([0x5a, 0x04]),
            0 => code.push(0x04),
            1 => code.extend([0x5f, 0x5b]),
            _ => revert(r, code),
        }
    }
    targets
}

fn guard(r: &mut Random, code: &mut Vec<u8>, targets: &[usize]) {
    if r.one_in(2) {
        code.push(0x15);
    }
    let target = match r.below(8) {
        0 => r.next() as usize,
        1 => code.len() + r.below(12),
        _ => r.pick(targets),
    };
    push(r, code, target, 4);
    code.push(if r.one_in(12) { 0x56 } else { 0x57 });
    match r.below(4) {
        0 => (),
        1 => code.push(0x5b),
        _ => {
            if r.one_in(2) {
                code.push(0x5b);
            }
            revert(r, code);
        }
    }
}

fn revert(r: &mut Random, code: &mut Vec<u8>) {
    let mut form = r.pick(&REVERTS).to_vec();
    if r.one_in(5) {
        let at = r.below(form.len());
        form[at] = r.pick(&[0x00, 0x01, 0x5f, 0x60, 0x80, 0xfd, 0xf3]);
    }
    code.extend(form);
}

fn push(r: &mut Random, code: &mut Vec<u8>, value: usize, most: usize) {
    let size = 1 + r.below(most);
    code.push(0x5f + size as u8);
    code.extend((0..size).rev().map(|i| (value >> (8 * i)) as u8));
}

fn checked_length(r: &mut Random, code: &mut Vec<u8>) {
    if r.one_in(2) {
        code.push(0x5b);
    }
    if r.one_in(2) {
        let size = match r.below(8) {
            0 => r.next() as usize,
            1 => r.below(8),
            2 => 4 + 32 * (4090 + r.below(12)),
            3 => 5 + r.below(100),
            _ => 4 + 32 * r.below(12),
        };
        push(r, code, size, 4);
        code.extend([0x36, 0x10]);
    } else {
        let most = if r.one_in(10) { 4 } else { 3 };
        let size = 1 + r.below(most);
        code.push(0x80);
        code.push(0x5f + size as u8);
        code.extend(std::iter::repeat_n(if r.one_in(12) { 0xfe } else { 0xff }, size - 1));
        code.push(if r.one_in(12) { 0xff } else { 0xfe });
        code.extend([0x16, 0x36, 0x10]);
    }
    if r.one_in(6) {
        let at = code.len() - 1 - r.below(3);
        code[at] = r.pick(&[0x10, 0x11, 0x36, 0x16]);
    }
}

pub fn start(r: &mut Random, code: &[u8], places: &[u32]) -> u32 {
    match r.below(10) {
        0 => r.below(code.len() + 3) as u32,
        1 => r.pick(&[u32::MAX, u32::MAX - 1, code.len() as u32, 65_535]),
        _ => r.pick(places),
    }
}

pub fn closing(r: &mut Random, code: &[u8], places: &[u32]) -> Closing {
    let mut packed = [r.next() as u32, 0, 0, 0, 0, 0, 0, 0];
    packed[7] = match r.below(4) {
        0 => r.next() as u32,
        1 => r.below(300) as u32,
        _ => (4 + 32 * r.below(20)) as u32 | r.below(2) as u32 | (r.below(3) as u32) << 24,
    };
    Closing { start: start(r, code, places), packed: (!r.one_in(3)).then_some(packed) }
}
