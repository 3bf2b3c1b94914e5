//! Calls with one or two numbers or lengths wrong; most are refused.

use super::{scene, types};
use crate::{
    compare::{self, Scene, Tally},
    core::*,
    generate::{self, Random},
};

/// What a step and a closing are handed.
struct Handed {
    scene: Scene,
    step: Vec<u32>,
    closing: Closing,
    types: Vec<u16>,
}

pub fn damaged(r: &mut Random, tally: &mut Tally) {
    let (scene, places) = scene(r);
    let step = generate::step(r, &scene, &places);
    let closing = generate::closing(r, &scene.code, &places);
    let mut handed = Handed { scene, step, closing, types: types(r) };
    for _ in 0..1 + r.below(2) {
        handed.damage(r);
    }
    let form = r.below(6) as u32;
    let Handed { mut scene, step, closing, mut types } = handed;
    let mut other = scene.clone();
    compare::step(tally, &mut scene, &step, form);
    compare::close(tally, &mut other, &closing, &mut types);
}

/// A number beside a limit, or any.
fn value(r: &mut Random) -> u32 {
    match r.below(4) {
        0 => r.below(4) as u32,
        1 => r.below(40) as u32,
        2 => r.pick(&[255, 256, 257, 1000, 1256, 2256, 3000, 3033, 16_384, u32::MAX]),
        _ => r.next() as u32,
    }
}

impl Handed {
    fn damage(&mut self, r: &mut Random) {
        match r.below(12) {
            0..=2 => self.damage_table(r),
            3 => self.damage_used(r),
            4 => self.scene.head.used = value(r),
            5 => self.scene.head.active = value(r),
            6 => self.damage_table_length(r),
            7 => {
                if r.one_in(20) {
                    self.scene.code.resize(65_535 + r.below(3), 0);
                }
            }
            8 => self.damage_lengths(r),
            9 => self.damage_step(r),
            10 => self.damage_slots(r),
            _ => self.damage_rest(r),
        }
    }

    fn damage_table(&mut self, r: &mut Random) {
        let at = r.below(self.scene.table.len().max(1));
        let wrong = value(r);
        self.scene.table.get_mut(at).into_iter().for_each(|n| *n = wrong);
    }

    /// A number of a used record: most records of a table are free.
    fn damage_used(&mut self, r: &mut Random) {
        let table = &mut self.scene.table;
        let at = r.below((self.scene.head.used as usize).min(table.len() / RECORD).max(1) * RECORD);
        if at < table.len() {
            table[at] = value(r);
        }
    }

    fn damage_table_length(&mut self, r: &mut Random) {
        let table = &mut self.scene.table;
        let cut = r.below(12);
        match r.below(3) {
            0 => table.truncate(table.len().saturating_sub(cut)),
            1 => table.extend(vec![0; cut]),
            _ if r.one_in(20) => table.resize((16_384 + r.below(2)) * RECORD, 0),
            _ => (),
        }
    }

    /// Lengths of the step, the stack and the memory, just wrong or at their limits.
    fn damage_lengths(&mut self, r: &mut Random) {
        let Scene { stack, memory, .. } = &mut self.scene;
        match r.below(6) {
            0 => self.step.truncate(r.below(STEP)),
            1 => self.step.push(0),
            2 => stack.truncate(stack.len().saturating_sub(1)),
            3 => memory.push(0),
            4 => {
                if r.one_in(10) {
                    stack.resize((1024 + r.below(2)) * SLOT, 0);
                }
            }
            _ => {
                if r.one_in(10) {
                    memory.resize((1024 + r.below(2)) * ENTRY, 0);
                }
            }
        }
    }

    fn damage_step(&mut self, r: &mut Random) {
        let at = r.below(self.step.len().max(1));
        if at < self.step.len() {
            self.step[at] = value(r);
        }
    }

    fn damage_slots(&mut self, r: &mut Random) {
        let part = if r.one_in(2) { &mut self.scene.stack } else { &mut self.scene.memory };
        if !part.is_empty() {
            let at = r.below(part.len());
            part[at] = value(r);
        }
    }

    /// No slot, too small a slice for the types, a wrong pick, flag or kind of the load's label, a wrong start.
    fn damage_rest(&mut self, r: &mut Random) {
        match r.below(4) {
            0 => self.scene.stack.clear(),
            1 => self.types.truncate(TYPES - r.below(3)),
            2 if self.step.len() > 46 => self.step[44 + r.below(3)] = value(r),
            _ => self.closing.start = value(r),
        }
    }
}
