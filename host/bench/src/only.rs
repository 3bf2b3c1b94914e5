//! One call again and again, for a profiler.

use crate::scenes::{Scene, Shape};
use argcol::{TYPES, raw};

/// What may be asked for.
pub const NAMES: [&str; 5] = ["step", "closing", "text", "sound", "scattered"];

pub fn only(name: &str, facts: usize) {
    let shape = if name == "scattered" { Shape::Scattered } else { Shape::Wide };
    let scene = Scene::new(shape, facts + 1, facts + 1).with(16, 4);
    let (mut s, mut types, mut out) = (scene.clone(), vec![0; TYPES], vec![0; 8 * TYPES]);
    let (codes, step, long) =
        (if name == "text" { scene.list() } else { Vec::new() }, scene.steps()[0].1, vec![0; 65_537]);
    for _ in 0..200 {
        match name {
            "step" => drop(s.step(&step)),
            "closing" => drop(s.close(&mut types)),
            "text" => drop(raw::text(&codes, &mut out)),
            _ => drop(raw::step(&mut s.head, &mut s.table, &long, &mut s.stack, &mut s.memory, &step)),
        }
    }
}
