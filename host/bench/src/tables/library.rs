use crate::{
    calls::{library_step, our_step},
    printed::{ns, ratio, row, title},
    scenes::{Scene, Shape},
};

/// Records, how many of them are used, slots and entries; generated contracts use some 23 records.
const SIZES: [(usize, usize, usize, usize); 5] =
    [(16, 4, 16, 4), (64, 23, 16, 4), (16_384, 23, 16, 4), (16, 4, 1_024, 1_024), (1_480, 1_478, 1_024, 1_024)];

/// `Session::step` beside the call that it makes.
pub fn library() {
    title("Library", "step | records | used | slots/entries | raw call | Session::step | Session/raw");
    for (records, used, slots, entries) in SIZES {
        let scene = Scene::new(Shape::Wide, used, records).with(slots, entries);
        for (name, step) in &scene.steps() {
            let (raw, library) = (our_step(&scene, step).0, library_step(&scene, step));
            let sizes = [records.to_string(), used.to_string(), format!("{slots}/{entries}")];
            row(&[&[name.to_string()], &sizes[..], &[ns(raw), ns(library), ratio(library, raw)]].concat());
        }
    }
}
