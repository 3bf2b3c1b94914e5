//! Steps: an opcode, operands that are bent to what its arm looks for, a pick and a load's label.

use super::{
    Random,
    aimed::aimed,
    codes::start,
    labels::{arg, label, slot},
    words::word,
};
use crate::{
    compare::Scene,
    core::*,
    plain::numbers::{KEY, PARENT},
};

/// The opcodes with an arm, each as often as its arm has cases, and two without.
const OPS: [u8; 44] = [
    0x35, 0x35, 0x35, 0x35, 0x35, 0x37, 0x37, 0x37, 0xf1, 0xf2, 0xf4, 0xfa, 0x01, 0x01, 0x01, 0x01, 0x1b, 0x1b, 0x1b,
    0x02, 0x02, 0x02, 0x10, 0x10, 0x10, 0x11, 0x11, 0x11, 0x53, 0x1c, 0x1c, 0x05, 0x07, 0x16, 0x16, 0x14, 0x14, 0x15,
    0x15, 0x0b, 0x1a, 0x51, 0x04, 0xfd,
];
/// The opcodes that take range names away.
const CLEARING: [u8; 9] = [0x04, 0x06, 0x03, 0x0a, 0x14, 0x15, 0x57, 0x54, 0xfd];
/// The opcodes that end the decoder phase.
const ENDING: [u8; 21] = [
    0x54, 0x55, 0x5c, 0x5d, 0x20, 0x31, 0x3b, 0x3f, 0x3c, 0xf1, 0xf2, 0xf4, 0xfa, 0xf0, 0xf5, 0xff, 0xa0, 0xa1, 0xa2,
    0xa3, 0xa4,
];

pub fn step(r: &mut Random, scene: &Scene, places: &[u32]) -> Vec<u32> {
    let mut step = vec![0; STEP];
    let op = opcode(r);
    step[0] = u32::from(op);
    step[1] = start(r, &scene.code, places);
    let (mut first, mut second) = (operand(r, scene), operand(r, scene));
    bend(r, scene, op, &mut first, &mut second);
    step[2..23].copy_from_slice(&first);
    step[23..44].copy_from_slice(&second);
    let count = scene.memory.len() / ENTRY;
    step[44] = r.below(count + 1) as u32;
    if op == 0x37 {
        // a copy's place is small, and its pick the entry there
        step[23..30].fill(0);
        step[30] = r.pick(&[0, 32, 64, 96, 128, 160, 7]);
        step[44] = scene.memory.chunks(ENTRY).rposition(|entry| entry[0] == step[30]).map_or(0, |at| at as u32 + 1);
    }
    if r.one_in(3) {
        let label = label(r, scene);
        if label[0] != 0 {
            step[45] = 1;
            step[46..].copy_from_slice(&label);
        }
    }
    step
}

fn opcode(r: &mut Random) -> u8 {
    match r.below(16) {
        0 => r.next() as u8,
        1 => r.pick(&CLEARING),
        2 if r.one_in(3) => r.pick(&ENDING),
        _ => r.pick(&OPS),
    }
}

fn operand(r: &mut Random, scene: &Scene) -> [u32; SLOT] {
    if !scene.stack.is_empty() && r.one_in(3) {
        let at = r.below(scene.stack.len() / SLOT) * SLOT;
        return scene.stack[at..at + SLOT].try_into().unwrap();
    }
    slot(r, scene)
}

/// Turns the operands to a combination that chance seldom gives.
fn bend(r: &mut Random, scene: &Scene, op: u8, first: &mut [u32; SLOT], second: &mut [u32; SLOT]) {
    match r.below(9) {
        // one operand bare
        0 | 1 => first[8..].fill(0),
        2 | 3 => second[8..].fill(0),
        4 if op == 0x14 || r.one_in(4) => twice(r, scene, first, second),
        5 => length(r, scene, first, second),
        // what one arm looks for
        6 | 7 => aimed(r, scene, op, first, second),
        _ => (),
    }
}

/// The same argument twice, one of them masked; at times with another number changed.
fn twice(r: &mut Random, scene: &Scene, first: &mut [u32; SLOT], second: &mut [u32; SLOT]) {
    first[8..].copy_from_slice(&arg(r, scene));
    let mask = word(r);
    second[8..].copy_from_slice(&first[8..]);
    let masked = if r.one_in(2) { first } else { second };
    masked[12] = 1;
    masked[13..].copy_from_slice(&mask);
    if r.one_in(4) {
        masked[9 + r.below(3)] = 0;
        masked[10] = masked[10].max(1);
    }
}

/// An array's length.
fn length(r: &mut Random, scene: &Scene, first: &mut [u32; SLOT], second: &mut [u32; SLOT]) {
    let length = if r.one_in(2) { first } else { second };
    length[8..].copy_from_slice(&arg(r, scene));
    (length[9], length[11]) = (0, 0);
    if r.one_in(3) {
        length[..8].fill(0);
    }
}

/// Turns a step's operands to records that are there, or to keys right beside theirs.
pub fn about_records(r: &mut Random, scene: &Scene, step: &mut [u32]) {
    let used = scene.head.used as usize;
    for label in [10, 31] {
        if step[label] >= 2 && used > 1 {
            let record = &scene.table[(1 + r.below(used - 1)) * RECORD..];
            let beside = r.pick(&[0, 0, 0, 1, u32::MAX, 32, 64]);
            (step[label + 1], step[label + 2]) = (record[KEY].wrapping_add(beside), record[PARENT]);
        }
    }
}
