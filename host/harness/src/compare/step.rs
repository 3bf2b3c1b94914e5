//! A step on all sides.

use super::{
    Scene, Tally,
    terms::{entries, load, paths, picks, slot, slots, state},
};
use crate::{
    core::*,
    plain::Plain,
    proved::{self, Proved},
};
use published::Step;

/// `form` chooses among the loads that stand for none.
pub fn step(tally: &mut Tally, scene: &mut Scene, step: &[u32], form: u32) -> u32 {
    let before = scene.clone();
    let number = Plain.step(&mut scene.head, &mut scene.table, &scene.code, &mut scene.stack, &mut scene.memory, step);
    tally.steps += 1;
    tally.step_numbers[number as usize] += 1;
    if proved::AT_HAND {
        with_proved(tally, &before, scene, step, number);
    }
    if number == 0 && published::AT_HAND && picks(step, &before.memory) {
        with_published(tally, &before, scene, step, form);
    }
    number
}

fn with_proved(tally: &mut Tally, before: &Scene, scene: &Scene, step: &[u32], number: u32) {
    let mut other = before.clone();
    let said = Proved.step(&mut other.head, &mut other.table, &other.code, &mut other.stack, &mut other.memory, step);
    if said != number
        || other.head != scene.head
        || other.table != scene.table
        || other.stack != scene.stack
        || other.memory != scene.memory
    {
        tally.difference(
            "a step, plain and proved",
            format!(
                "plain {number}, proved {said}\nbefore {before:?}\nstep {step:?}\nplain {scene:?}\nproved {other:?}"
            ),
        );
    }
}

fn with_published(tally: &mut Tally, before: &Scene, scene: &Scene, step: &[u32], form: u32) {
    tally.steps_published += 1;
    let old = paths(&before.table, before.head.used);
    let mut held = state(&before.table, before.head, &old);
    let mut stack = slots(&before.stack, &old);
    let mut memory = entries(&before.memory, &old);
    let handed = Step {
        op: step[0] as u8,
        pc: step[1] as usize,
        args: [slot(&step[2..23], &old), slot(&step[23..44], &old)],
        load: load(step, &old, form),
    };
    let failed = published::analyze(&before.code, &mut held, &mut stack, &mut memory, &handed);
    let new = paths(&scene.table, scene.head.used);
    let ours = (state(&scene.table, scene.head, &new), slots(&scene.stack, &new), entries(&scene.memory, &new));
    if failed || (&ours.0, &ours.1, &ours.2) != (&held, &stack, &memory) {
        let facts = state(&before.table, before.head, &old);
        tally.difference(
            "a step, published",
            format!(
                "failed {failed}, code {:02x?}\nhanded {handed:?}\nfacts {facts:?}\nstack {:?}\nmemory {:?}\nours {ours:?}\npublished {held:?} {stack:?} {memory:?}",
                before.code,
                slots(&before.stack, &old),
                entries(&before.memory, &old)
            ),
        );
    }
}
