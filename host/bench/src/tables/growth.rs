use crate::{
    calls::{our_closing, our_step, soundness},
    clock::repeated,
    moves::{array_mark, revert},
    printed::{ns, ratio, row, title},
    scenes::{Scene, Shape},
};
use argcol::{TYPES, raw};
use std::hint::black_box;

const RECORDS: [usize; 5] = [1_024, 2_048, 4_096, 8_192, 16_384];
const VALUES: [usize; 4] = [128, 256, 512, 1_024];
const ENTRIES: [usize; 4] = [508, 1_016, 2_032, 4_064];

pub fn growth() {
    title("Growth", "what | sizes | times | each as a multiple of the one before");
    for (name, shape) in Shape::ALL {
        show(&format!("soundness, {name}"), &RECORDS, &|n| soundness(&Scene::new(shape, n, n)));
    }
    let pop = |scene: Scene| our_step(&scene, &scene.steps()[0].1).0;
    show("step by the slots, 16 records", &VALUES, &|n| pop(Scene::new(Shape::Wide, 16, 16).with(n, 4)));
    show("step by the entries, 16 records", &VALUES, &|n| pop(Scene::new(Shape::Wide, 16, 16).with(16, n)));
    show("array mark by the slots, 16 records", &VALUES, &|n| our_step(&Scene::marked(16, 16, n, 4), &array_mark()).0);
    let deep = |n| Scene::new(Shape::Deep, n, n).with(16, 4);
    let wide = |n| Scene::new(Shape::Wide, n, n).with(16, 4);
    show("step far down, deep", &RECORDS, &|n| our_step(&deep(n), &deep(n).far_down()).0);
    show("revert that clears range names, deep", &RECORDS, &|n| our_step(&deep(n), &revert()).0);
    show("revert that clears range names, wide", &RECORDS, &|n| our_step(&wide(n), &revert()).0);
    show("closing by the entries", &ENTRIES, &|n| our_closing(&Scene::new(Shape::Wide, n + 1, n + 1), n));
    show("closing by the entries, only the last known", &ENTRIES, &|n| our_closing(&Scene::lone(n, 64), n));
    show("closing that fills in all but the last", &ENTRIES, &|n| our_closing(&Scene::lone(n, n + 1).checked(n), n));
    show("text by the entries", &ENTRIES, &|n| {
        let (codes, mut out) = (Scene::new(Shape::Wide, n + 1, n + 1).list(), vec![0; 8 * TYPES]);
        repeated(|| raw::text(black_box(&codes), &mut out))
    });
}

fn show(what: &str, sizes: &[usize], time: &dyn Fn(usize) -> f64) {
    let times: Vec<f64> = sizes.iter().map(|size| time(*size)).collect();
    let join = |cells: Vec<String>| cells.join(", ");
    let steps = times.windows(2).map(|pair| ratio(pair[1], pair[0])).collect();
    row(&[
        what.into(),
        join(sizes.iter().map(usize::to_string).collect()),
        join(times.iter().map(|time| ns(*time)).collect()),
        join(steps),
    ]);
}
