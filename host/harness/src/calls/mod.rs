//! Lists of calls: from fresh tables, from any sound table, from large ones in no order, at the limits, and damaged.

mod damaged;
mod large;
mod texts;

pub use damaged::damaged;
pub use large::{at_limits, scattered};

use crate::{
    compare::{self, Scene, Tally},
    core::*,
    generate::{self, Random},
};

/// Some calls of every sort but those at the limits.
pub fn any(r: &mut Random, tally: &mut Tally) {
    match r.below(8) {
        0 if r.one_in(20) => large::filled(r, tally),
        0..=4 => session(r, tally),
        5 | 6 => from_table(r, tally),
        _ => damaged(r, tally),
    }
}

/// A slice for the types, of the length that is asked for or a little longer.
fn types(r: &mut Random) -> Vec<u16> {
    vec![r.next() as u16; TYPES + r.below(3)]
}

/// A fresh table, then steps that hand stack and memory on, with closings between.
fn session(r: &mut Random, tally: &mut Tally) {
    let records = if r.one_in(4) { 1 + r.below(12) } else { 20 + r.below(80) };
    let (code, places) = generate::code(r);
    let mut scene = Scene {
        head: Head::new(r.next() as u32, r.next() as u32),
        table: vec![r.next() as u32; records * RECORD],
        code,
        stack: Vec::new(),
        memory: Vec::new(),
    };
    compare::fresh(tally, &mut scene.head, &mut scene.table);
    for _ in 0..1 + r.below(40) {
        if r.one_in(4) || scene.stack.is_empty() {
            let (slots, entries) = (r.below(6), r.below(5));
            scene.stack = generate::stack(r, &scene, slots);
            scene.memory = generate::memory(r, &scene, entries);
        }
        let step = generate::step(r, &scene, &places);
        let form = r.below(6) as u32;
        compare::step(tally, &mut scene, &step, form);
        if r.one_in(16) {
            let closing = generate::closing(r, &scene.code, &places);
            compare::close(tally, &mut scene, &closing, &mut types(r));
        }
    }
    let closing = generate::closing(r, &scene.code, &places);
    let mut codes = types(r);
    if let Verdict::Granted { entries, .. } = compare::close(tally, &mut scene, &closing, &mut codes) {
        texts::texts(r, tally, &mut codes, entries);
    }
}

/// A scene over any sound table.
fn scene(r: &mut Random) -> (Scene, Vec<u32>) {
    let (code, places) = generate::code(r);
    let (used, shape) = match r.below(60) {
        0 | 4 => (60 + r.below(12), 1),
        1 => (1 + r.below(300), 1),
        2 => (1 + r.below(300), 2),
        3 => (1 + r.below(100), 0),
        _ => (1 + r.below(20), 0),
    };
    let free = match r.below(6) {
        0 => 0,
        1 => r.below(3),
        2 => 5000 * r.below(2),
        _ => r.below(40),
    };
    let (head, table) = generate::table(r, used, free, shape);
    let mut scene = Scene { head, table, code, stack: Vec::new(), memory: Vec::new() };
    let (slots, entries) = (r.below(5), r.below(5));
    scene.stack = generate::stack(r, &scene, slots);
    scene.memory = generate::memory(r, &scene, entries);
    (scene, places)
}

fn from_table(r: &mut Random, tally: &mut Tally) {
    let (mut scene, places) = scene(r);
    for _ in 0..r.below(8) {
        let step = generate::step(r, &scene, &places);
        let form = r.below(6) as u32;
        compare::step(tally, &mut scene, &step, form);
    }
    let closing = generate::closing(r, &scene.code, &places);
    compare::close(tally, &mut scene, &closing, &mut types(r));
}
