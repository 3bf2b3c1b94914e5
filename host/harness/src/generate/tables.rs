//! Sound tables.

use super::Random;
use crate::{core::*, plain::numbers::*};

pub fn key(r: &mut Random) -> u32 {
    match r.below(14) {
        0..=3 => 0,
        4..=6 => 32,
        7..=9 => 32 * r.below(6) as u32,
        10 => r.pick(&[1, 4, 5, 31, 33, 63, 65]),
        11 => 32 * r.below(200) as u32,
        12 => r.pick(&[130_043, 131_072, 262_080, 262_112, 3168, 3200]),
        _ => r.next() as u32,
    }
}

fn name(r: &mut Random) -> u32 {
    match r.below(8) {
        0 | 1 => 1,
        2 => 2,
        3 | 4 => 3,
        5 => 4,
        6 => r.pick(&[1000, 2000]) + 8 * (1 + r.below(32)) as u32,
        _ => 3001 + r.below(32) as u32,
    }
}

/// A sound table of so many used records and so many free ones. Shape 0 is any, 1 one deep chain of levels, 2 two long
/// chains through each other.
pub fn table(r: &mut Random, used: usize, free: usize, shape: usize) -> (Head, Vec<u32>) {
    let mut table = vec![0; (used + free) * RECORD];
    table[SEEN] = 1;
    let mut children: Vec<Vec<(u32, usize)>> = vec![Vec::new(); used + 1];
    for n in 2..=used {
        let (parent, key) = place(r, n, used, shape, &children);
        children[parent].push((key, n));
        let parent_seen = table[(parent - 1) * RECORD + SEEN] == 1;
        let record = &mut table[(n - 1) * RECORD..n * RECORD];
        (record[KEY], record[PARENT]) = (key, parent as u32);
        record[NOT_BOOL] = u32::from(r.one_in(4));
        if parent_seen && !r.one_in(if shape == 1 { 2000 } else { 5 }) {
            see(r, record, shape);
        }
    }
    link(&mut table, &mut children);
    (Head::new(used as u32, u32::from(!r.one_in(4))), table)
}

/// A parent and a key for record `n` that no record has yet.
fn place(r: &mut Random, n: usize, used: usize, shape: usize, children: &[Vec<(u32, usize)>]) -> (usize, u32) {
    let found = loop {
        let parent = match shape {
            1 => n - 1,
            2 => 1 + r.below(2).min(n - 2),
            _ => 1 + if r.one_in(2) { r.below(n - 1) } else { r.below((n - 1).min(5)) },
        };
        let key = if shape == 0 || r.one_in(4) {
            key(r)
        } else if shape == 1 {
            0
        } else {
            32 * r.below(2 * used) as u32
        };
        if children[parent].iter().all(|child| child.0 != key) {
            break (parent, key);
        }
    };
    if shape == 1 && n == 2 { (1, 0) } else { found }
}

/// A seen record with what it may hold: a block, a kind, a name.
fn see(r: &mut Random, record: &mut [u32], shape: usize) {
    record[SEEN] = 1;
    record[BLOCKED] = u32::from(r.one_in(6));
    match r.below(5) {
        0 => (record[KIND], record[COUNT]) = (DYNAMIC, r.pick(&[0, 0, 1, 1, 2, 3, 40])),
        1 => (record[KIND], record[COUNT]) = (ARRAY, r.pick(&[1, 1, 1, 2, 3, 99])),
        2 if shape == 0 && r.one_in(20) => {
            (record[KIND], record[COUNT]) = (DYNAMIC, r.pick(&[134_217_727, 8190, 8189, 5000]))
        }
        _ => (),
    }
    if r.one_in(2) {
        record[NAME] = name(r);
        record[CONFIDENCE] = if r.one_in(6) { 1 + r.below(20) as u32 } else { r.pick(&[4, 5, 6, 6, 6, 8, 10, 12, 20]) };
        if record[CONFIDENCE] == RANGE && r.one_in(2) {
            record[NAME] = 1008;
        }
    }
}

/// Each record's children in a chain, their keys rising.
fn link(table: &mut [u32], children: &mut [Vec<(u32, usize)>]) {
    for (n, chain) in children.iter_mut().enumerate().skip(1) {
        chain.sort();
        for (i, child) in chain.iter().enumerate() {
            let at = if i == 0 { (n - 1) * RECORD + CHILD } else { (chain[i - 1].1 - 1) * RECORD + NEXT };
            table[at] = child.1 as u32;
        }
    }
}
