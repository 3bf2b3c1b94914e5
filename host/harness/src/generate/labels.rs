//! Labels that fit a table, and slots and entries with them.

use super::{Random, tables::key, words::word};
use crate::{
    compare::Scene,
    core::*,
    plain::numbers::{ARG, CALL_DATA, CHILD, KEY, NEXT, ZERO_TEST},
};

pub fn arg(r: &mut Random, scene: &Scene) -> [u32; LABEL] {
    let mut label = [0; LABEL];
    let used = scene.head.used.max(1) as usize;
    let path = match r.below(4) {
        0 => 1,
        1 => used - r.below(used.min(4)),
        _ => 1 + r.below(used),
    };
    let offset = match r.below(8) {
        0..=2 => 0,
        3 | 4 => key_below(r, scene, path, used),
        _ => key(r),
    };
    let added = match r.below(10) {
        0..=3 => 0,
        4 | 5 => 4,
        6 | 7 => 4 + 32 * r.below(5) as u32,
        8 => r.pick(&[1, 3, 5, 32, 35, 36, u32::MAX, u32::MAX - 3, 1 << 31, u32::MAX - 27]),
        _ => r.next() as u32,
    };
    label[..4].copy_from_slice(&[ARG, offset, path as u32, added]);
    if r.one_in(4) {
        label[4] = 1;
        label[5..].copy_from_slice(&word(r));
    }
    label
}

/// The key of a record's first or second child, 0 if there is none. The table may be damaged, so that the numbers are
/// asked first.
fn key_below(r: &mut Random, scene: &Scene, path: usize, used: usize) -> u32 {
    let at = |n: u32| &scene.table[(n as usize - 1) * RECORD..];
    let is_used = |n: u32| n > 0 && n as usize <= used;
    match scene.table.get((path - 1) * RECORD + CHILD) {
        Some(&child) if is_used(child) => {
            if r.one_in(2) && is_used(at(child)[NEXT]) {
                at(at(child)[NEXT])[KEY]
            } else {
                at(child)[KEY]
            }
        }
        _ => 0,
    }
}

pub fn label(r: &mut Random, scene: &Scene) -> [u32; LABEL] {
    let mut out = [0; LABEL];
    match r.below(10) {
        0 | 1 => (),
        2 => out[0] = CALL_DATA,
        3 => {
            out = arg(r, scene);
            out[0] = ZERO_TEST;
        }
        _ => out = arg(r, scene),
    }
    out
}

pub fn slot(r: &mut Random, scene: &Scene) -> [u32; SLOT] {
    let mut out = [0; SLOT];
    out[..8].copy_from_slice(&word(r));
    out[8..].copy_from_slice(&label(r, scene));
    out
}

pub fn stack(r: &mut Random, scene: &Scene, count: usize) -> Vec<u32> {
    (0..count).flat_map(|_| slot(r, scene)).collect()
}

pub fn memory(r: &mut Random, scene: &Scene, count: usize) -> Vec<u32> {
    (0..count)
        .flat_map(|_| {
            let mut entry = [0; ENTRY];
            (entry[0], entry[1]) = (r.pick(&[0, 32, 64, 64, 96, 128]), u32::from(r.one_in(5)));
            entry[2..].copy_from_slice(&label(r, scene));
            entry
        })
        .collect()
}
