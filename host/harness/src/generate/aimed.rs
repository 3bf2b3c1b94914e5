//! Operands for one arm: chance alone seldom gives those that go to its end.

use super::{Random, labels::arg};
use crate::{compare::Scene, core::*, plain::numbers::*};

/// Operands that an arm of this opcode goes far with.
pub fn aimed(r: &mut Random, scene: &Scene, op: u8, first: &mut [u32; SLOT], second: &mut [u32; SLOT]) {
    let mut label = arg(r, scene);
    label[4..].fill(0);
    let (with, bare) = if matches!(op, 0x35 | 0x37 | 0x54 | 0x15 | 0x53 | 0xf1 | 0xf2 | 0xf4 | 0xfa)
        || matches!(op, 0x10 | 0x11) && r.one_in(2)
    {
        (first, second)
    } else {
        (second, first)
    };
    let value = aim(r, scene, op, &mut label);
    with[8..].copy_from_slice(&label);
    bare.fill(0);
    bare[7] = value;
}

/// Turns the label to what the arm looks for; the other operand's number.
fn aim(r: &mut Random, scene: &Scene, op: u8, label: &mut [u32; LABEL]) -> u32 {
    match op {
        0x35 | 0x37 => {
            label[3] = 4 + 32 * r.pick(&[0, 0, 0, 1, 2]);
            0
        }
        0x10 | 0x11 => aim_compare(r, scene, label),
        0x02 => aim_multiply(r, scene, label),
        0x15 if r.one_in(2) => {
            label[0] = ZERO_TEST;
            0
        }
        0x1b if r.one_in(2) => {
            (label[1], label[3]) = (0, 0);
            r.below(14) as u32
        }
        0x1b | 0x1c => 8 * r.below(34) as u32,
        _ => {
            // one with a range name, if there is one
            let ranged =
                (1..scene.head.used as usize).find(|n| scene.table[n * RECORD + CONFIDENCE] == RANGE && !r.one_in(4));
            point_at(scene, ranged, label);
            r.below(40) as u32
        }
    }
}

/// A seen record, a blocked one without a mark above all, against a bound of the range rule.
fn aim_compare(r: &mut Random, scene: &Scene, label: &mut [u32; LABEL]) -> u32 {
    label[3] = 0;
    let marked = |n: &usize| {
        let record = &scene.table[n * RECORD..];
        record[SEEN] == 1 && (r.one_in(3) || record[BLOCKED] == 1 && record[NOT_BOOL] == 0)
    };
    let found = (1..scene.head.used as usize).find(marked);
    point_at(scene, found, label);
    r.pick(&[0, 1, 2, 3, 31, 254, 255, 256, 257])
}

/// The length of a record, an array's above all, times a multiple of 32.
fn aim_multiply(r: &mut Random, scene: &Scene, label: &mut [u32; LABEL]) -> u32 {
    (label[1], label[3]) = (0, 0);
    if let Some(n) = (1..scene.head.used as usize).find(|n| r.one_in(4) || scene.table[n * RECORD + KIND] == ARRAY) {
        label[2] = n as u32 + 1;
    }
    32 * r.below(101) as u32
}

/// The label of a record, by its key and its parent, if there is one; `n` counts from 0.
fn point_at(scene: &Scene, n: Option<usize>, label: &mut [u32; LABEL]) {
    if let Some(n) = n {
        let record = &scene.table[n * RECORD..];
        (label[1], label[2]) = (record[KEY], record[PARENT]);
    }
}
