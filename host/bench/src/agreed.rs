//! Stops the driver unless both sides give the same, once each and off the clock.

use crate::{moves::Move, scenes::Scene};
use argcol::TYPES;
use published::Answer;

/// Facts, stack and memory after some steps.
pub fn steps(scene: &Scene, steps: &[Move]) {
    let (mut ours, mut state, (mut stack, mut memory, _)) = (scene.clone(), scene.state(), scene.published(&steps[0]));
    for step in steps {
        let handed = ours.published(step).2;
        assert_eq!(ours.step(step), 0);
        assert!(!published::analyze(&scene.code, &mut state, &mut stack, &mut memory, &handed), "no error");
    }
    assert!(state == ours.state(), "the same facts on both sides");
    let (our_stack, our_memory, _) = ours.published(&steps[0]);
    assert!(stack == our_stack && memory == our_memory, "the same stack and memory on both sides");
}

/// A closing's list, its budget left, and the facts after it.
pub fn closing(scene: &Scene) {
    let (mut ours, mut state, mut types) = (scene.clone(), scene.state(), vec![0; TYPES]);
    let said = ours.close(&mut types);
    let rust = published::close(&scene.code, 0, None, &mut state);
    assert!(
        rust == Answer::Granted(said.left as usize, said.entries as usize, scene.list()),
        "the same list on both sides"
    );
    assert!(state == ours.state(), "the same facts on both sides");
}
