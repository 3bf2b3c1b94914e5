//! Questions 1 and 2: is this a table, and is it sound?

use super::numbers::*;
use crate::core::RECORD;

pub fn is_table(table: &[u32]) -> bool {
    table.len().is_multiple_of(RECORD) && (1..=16_384).contains(&(table.len() / RECORD))
}

pub fn is_sound(table: &[u32], used: u32) -> bool {
    let count = (table.len() / RECORD) as u32;
    if used < 1 || used > count || table[used as usize * RECORD..].iter().any(|n| *n != 0) {
        return false;
    }
    let root = at(table, 1);
    // the records are looked at behind the chains, which show that each parent is a used record
    chains_hold(table, used)
        && (1..=used).all(|r| record_holds(table, r))
        && root[SEEN] == 1
        && (0..RECORD).all(|i| i == CHILD || i == SEEN || root[i] == 0)
}

fn at(table: &[u32], r: u32) -> &[u32] {
    &table[(r as usize - 1) * RECORD..r as usize * RECORD]
}

/// Each used record but the root stands once in one chain, that of its parent.
fn chains_hold(table: &[u32], used: u32) -> bool {
    let mut stands = vec![0u32; used as usize + 1];
    for r in 1..=used {
        let (mut next, mut low) = (at(table, r)[CHILD], None);
        while next != 0 {
            // a parent has the lower number; a chain holds used children of its own record alone, keys strictly rising
            if next <= r
                || next > used
                || at(table, next)[PARENT] != r
                || low.is_some_and(|key| at(table, next)[KEY] <= key)
            {
                return false;
            }
            stands[next as usize] += 1;
            low = Some(at(table, next)[KEY]);
            next = at(table, next)[NEXT];
        }
    }
    (2..=used).all(|r| stands[r as usize] == 1)
}

/// What a record says by itself, and that a seen one has a seen parent.
fn record_holds(table: &[u32], r: u32) -> bool {
    let f = at(table, r);
    let flags = f[SEEN] <= 1 && f[NOT_BOOL] <= 1 && f[BLOCKED] <= 1;
    let seen =
        if f[SEEN] == 1 { r == 1 || at(table, f[PARENT])[SEEN] == 1 } else { f[BLOCKED..].iter().all(|n| *n == 0) };
    let count = match f[KIND] {
        0 => f[COUNT] == 0,
        DYNAMIC => f[COUNT] <= 134_217_727,
        ARRAY => (1..=99).contains(&f[COUNT]),
        _ => false,
    };
    let name = if f[NAME] == 0 { f[CONFIDENCE] == 0 } else { is_name(f[NAME]) && (1..=20).contains(&f[CONFIDENCE]) };
    flags && seen && count && name
}
