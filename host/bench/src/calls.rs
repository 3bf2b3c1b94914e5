//! Our calls under the clock.

use crate::{
    clock::{least, repeated},
    moves::Move,
    scenes::Scene,
};
use argcol::{Memory, Session, Stack, Step, TYPES, raw};
use std::{hint::black_box, time::Instant};

pub fn our_step(scene: &Scene, step: &Move) -> (f64, Scene) {
    let mut s = scene.clone();
    let time = repeated(|| assert_eq!(s.step(step), 0));
    (time, s)
}

/// The same by the library: a session, with a stack, a memory and a step as values.
pub fn library_step(scene: &Scene, step: &Move) -> f64 {
    let mut session = Session::from_numbers(scene.head, scene.table.clone()).unwrap();
    let mut stack = Stack::try_from(&scene.stack[..]).unwrap();
    let mut memory = Memory::try_from(&scene.memory[..]).unwrap();
    let step = Step::try_from(step).unwrap();
    repeated(|| session.step(&scene.code, &mut stack, &mut memory, black_box(&step)).unwrap())
}

/// Steps in a row that make records: the time of one.
pub fn our_making(scene: &Scene, steps: &[Move]) -> f64 {
    taken_back(scene, |s| steps.iter().for_each(|step| assert_eq!(s.step(step), 0))) / steps.len() as f64
}

/// A closing that has to grant so many entries.
pub fn our_closing(scene: &Scene, entries: usize) -> f64 {
    let (mut s, mut types) = (scene.clone(), vec![0; TYPES]);
    let said = s.close(&mut types);
    assert_eq!((said.number, said.kind, said.entries as usize), (0, 3, entries));
    if s.head == scene.head {
        repeated(|| assert_eq!(s.close(&mut types).number, 0))
    } else {
        taken_back(scene, |s| assert_eq!(s.close(&mut types).number, 0))
    }
}

/// A call that makes records, which are taken back off the clock. Only the numbers that it changes are written, so that
/// the caches stay as they are.
fn taken_back(scene: &Scene, mut call: impl FnMut(&mut Scene)) -> f64 {
    let mut s = scene.clone();
    call(&mut s);
    let changed: Vec<(usize, u32)> =
        scene.table.iter().copied().enumerate().filter(|(at, number)| s.table[*at] != *number).collect();
    least(|calls| {
        let timed = (0..calls).map(|_| {
            s.head = scene.head;
            changed.iter().for_each(|(at, number)| s.table[*at] = *number);
            let start = Instant::now();
            call(&mut s);
            start.elapsed()
        });
        timed.sum()
    })
}

/// A call that question 3 refuses asks questions 1 and 2 and nothing else.
pub fn soundness(scene: &Scene) -> f64 {
    let (mut s, code) = (scene.clone(), vec![0; 65_537]);
    repeated(|| assert_eq!(raw::step(&mut s.head, &mut s.table, &code, &mut [], &mut [], &[]), 3))
}
