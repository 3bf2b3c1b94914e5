use crate::{
    clock::{least, repeated},
    printed::{ns, ratio, row, title},
    scenes::{Scene, Shape},
};
use argcol::{TYPES, raw};
use published::timed::Closer;
use std::hint::black_box;

pub fn texts() {
    title("Texts", "entries | codes | bytes | ours | Rust (the stand-in's names, joined) | ours/Rust");
    for entries in [1, 64, 4_064] {
        let scene = Scene::new(Shape::Wide, entries + 1, entries + 1);
        let (codes, mut out) = (scene.list(), vec![0; 8 * TYPES]);
        assert_eq!(codes.len(), entries);
        let (number, length) = raw::text(&codes, &mut out);
        assert_eq!(number, 0);
        let ours = repeated(|| raw::text(black_box(&codes), &mut out));
        let mut rust = 0.0;
        if published::AT_HAND {
            let mut closer = Closer::new(&scene.state(), None);
            assert_eq!(closer.text().as_bytes(), &out[..length], "the two texts are one");
            rust = least(|n| closer.text_batch(n));
        }
        row(&[entries.to_string(), codes.len().to_string(), length.to_string(), ns(ours), ns(rust), ratio(ours, rust)]);
    }
}
