//! Calls on large tables: words that are filled in, long chains, and everything at its limit.

use super::types;
use crate::{
    compare::{self, Scene, Tally},
    core::*,
    generate::{self, Random},
    plain::numbers::{ARRAY, COUNT, KIND, SEEN},
};

/// A checked length about the most words that are filled in, with and without the room for them.
pub fn filled(r: &mut Random, tally: &mut Tally) {
    let words = 4095 + r.below(3);
    let mut code = vec![0x62, 0, 0, 0, 0x36, 0x10];
    code[1..4].copy_from_slice(&(4 + 32 * words as u32).to_be_bytes()[1..]);
    let free = 4094 + r.below(5);
    let (head, mut table) = generate::table(r, 4, free, 0);
    let lone = 1 + r.below(8);
    for n in 1..4 {
        let f = &mut table[n * RECORD..];
        (f[KIND], f[COUNT]) = if n == lone && f[SEEN] == 1 { (ARRAY, 3) } else { (0, 0) };
    }
    let mut scene = Scene { head, table, code, stack: Vec::new(), memory: Vec::new() };
    compare::close(tally, &mut scene, &Closing { start: 0, packed: None }, &mut types(r));
}

/// Two long chains through each other, their records learnt in no order, in full and nearly full tables: steps about
/// children that are there and about keys beside them; and closings that fill in the words between them.
pub fn scattered(r: &mut Random, tally: &mut Tally) {
    let (code, places) = generate::code(r);
    let used = if r.one_in(12) { 300 + r.below(1180) } else { 33 + r.below(260) };
    let free = if r.one_in(2) { r.below(3) } else { r.below(3 * used) };
    let (head, table) = generate::table(r, used, free, 2);
    let mut scene = Scene { head, table, code, stack: Vec::new(), memory: Vec::new() };
    if r.one_in(3) {
        // no kinds, which would keep the words from being filled in
        scene.table.chunks_mut(RECORD).for_each(|f| f[KIND..=COUNT].fill(0));
        let length = 4 + 32 * r.below(3 * used) as u32;
        scene.code = [&[0x63], &length.to_be_bytes()[..], &[0x36, 0x10]].concat();
        compare::close(tally, &mut scene, &Closing { start: 0, packed: None }, &mut types(r));
        return;
    }
    let (slots, entries) = (1 + r.below(4), r.below(4));
    scene.stack = generate::stack(r, &scene, slots);
    scene.memory = generate::memory(r, &scene, entries);
    for _ in 0..1 + r.below(12) {
        let mut step = generate::step(r, &scene, &places);
        generate::about_records(r, &scene, &mut step);
        let form = r.below(6) as u32;
        compare::step(tally, &mut scene, &step, form);
    }
    let closing = generate::closing(r, &scene.code, &places);
    compare::close(tally, &mut scene, &closing, &mut types(r));
}

/// Everything at its limit: wide tables of 16,384 records, deep ones of 3,000 levels, full or with room, 1,024 slots
/// and entries, 65,536 bytes of code; and each at times one larger.
pub fn at_limits(r: &mut Random, tally: &mut Tally) {
    let round = r.below(7);
    let (mut code, places) = generate::code(r);
    code.resize(65_536 + usize::from(round == 3), 0);
    let deep = r.one_in(2);
    let used = if deep { 2900 + r.below(100) } else { 16_384 - 4100 * r.below(2) - r.below(2) };
    let free = if deep { r.below(4) } else { 16_384 - used + usize::from(round == 5) };
    let (head, table) = generate::table(r, used, free, if deep { 1 } else { 2 });
    let mut scene = Scene { head, table, code, stack: Vec::new(), memory: Vec::new() };
    scene.stack = generate::stack(r, &scene, 1024 + usize::from(round == 1));
    scene.memory = generate::memory(r, &scene, 1024 + usize::from(round == 2));
    for _ in 0..4 {
        let step = generate::step(r, &scene, &places);
        compare::step(tally, &mut scene, &step, 0);
    }
    let closing = generate::closing(r, &scene.code, &places);
    compare::close(tally, &mut scene, &closing, &mut types(r));
    let mut table = vec![7; (16_384 + r.below(2)) * RECORD];
    compare::fresh(tally, &mut scene.head, &mut table);
}
