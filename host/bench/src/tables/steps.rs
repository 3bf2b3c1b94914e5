use crate::{
    agreed,
    calls::{our_making, our_step},
    clock::least,
    moves::{Move, NEW, array_mark},
    printed::{ns, ratio, row, title},
    reads::{Reads, reads},
    scenes::{Scene, Shape},
};
use argcol::{ENTRY, RECORD, SLOT, STEP};
use published::timed::Stepper;

pub fn steps() {
    title("Steps", STEPS);
    for records in [16, 64, 1_480, 16_384] {
        for (slots, entries) in [(16, 4), (1_024, 1_024)] {
            // with fewer than two free records a step looks its paths up once more, to count those that are missing
            for used in [records, records - 2, 4] {
                let scene = Scene::new(Shape::Wide, used, records).with(slots, entries);
                steps_on(&scene, &scene.steps());
            }
            steps_on(&Scene::marked(records - 2, records, slots, entries), &[("MUL, an array mark", array_mark())]);
            new_record(&Scene::new(Shape::Wide, records - 2 - NEW, records).with(slots, entries));
        }
    }
    title("Steps, facts in no order", STEPS);
    for records in [64, 1_480, 16_384] {
        for used in [records, records - 2] {
            let scene = Scene::new(Shape::Scattered, used, records).with(16, 4);
            let [pop, _, _, load] = scene.steps();
            steps_on(&scene, &[pop, load]);
        }
    }
}

const STEPS: &str = "step | records | used | slots/entries | ours | Rust | ours/Rust | one by one | vectorized | ours/one by one | ours/vectorized";

/// Steps that leave what they find: each again and again.
fn steps_on(scene: &Scene, steps: &[(&str, Move)]) {
    let read = read(scene);
    for (name, step) in steps {
        let (ours, after) = our_step(scene, step);
        let mut rust = 0.0;
        if published::AT_HAND {
            agreed::steps(scene, &[*step]);
            let mut stepper = stepper(scene, step);
            rust = in_groups(&mut stepper, 256);
            assert!(stepper.state() == after.state(), "the same facts on both sides");
        }
        show(name, scene, ours, rust, &read);
    }
}

/// A load that makes a record, some in a row; they are taken back off the clock.
fn new_record(scene: &Scene) {
    let (read, steps) = (read(scene), scene.new_loads());
    let ours = our_making(scene, &steps);
    let mut rust = 0.0;
    if published::AT_HAND {
        agreed::steps(scene, &steps);
        let mut stepper = stepper(scene, &steps[0]);
        rust = in_groups(&mut stepper, NEW);
        assert!(stepper.state() == scene.state(), "all of it is taken back");
    }
    show("load that makes a record", scene, ours, rust, &read);
}

fn stepper<'a>(scene: &'a Scene, step: &Move) -> Stepper<'a> {
    let (stack, memory, handed) = scene.published(step);
    Stepper::new(&scene.code, &scene.state(), &stack, &memory, &handed)
}

/// The time of one of so many steps in a row. What thousands of them are handed would not stay in the caches, and a few
/// would take the clock's own time.
fn in_groups(stepper: &mut Stepper, steps: usize) -> f64 {
    least(|groups| (0..groups).map(|_| stepper.batch(steps)).sum()) / steps as f64
}

fn read(scene: &Scene) -> Reads {
    reads(&[&scene.table, &scene.stack, &scene.memory, &[0; STEP]])
}

fn show(name: &str, scene: &Scene, ours: f64, rust: f64, read: &Reads) {
    let shown = [
        name.to_string(),
        (scene.table.len() / RECORD).to_string(),
        scene.head.used.to_string(),
        format!("{}/{}", scene.stack.len() / SLOT, scene.memory.len() / ENTRY),
        ns(ours),
        ns(rust),
        ratio(ours, rust),
    ];
    let read = [ns(read.one_by_one), ns(read.vectorized), ratio(ours, read.one_by_one), ratio(ours, read.vectorized)];
    row(&[&shown[..], &read].concat());
}
