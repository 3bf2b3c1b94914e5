use crate::{
    agreed,
    calls::our_closing,
    clock::least,
    printed::{ns, ratio, row, title},
    scenes::{Scene, Shape},
};
use argcol::RECORD;
use published::timed::Closer;

pub fn closings() {
    title("Closings", "entries | facts | records | ours | Rust | ours/Rust");
    for entries in [1, 64, 4_064] {
        for known in Known::of(entries) {
            let needed = known.needed(entries);
            let mut tables = vec![16, 64, needed.max(entries + 1), 1_480, 16_384];
            tables.sort();
            tables.dedup();
            for records in tables.into_iter().filter(|records| *records >= needed) {
                closing(&known.scene(entries, records), entries, known.word());
            }
        }
    }
}

/// What is known before the closing.
#[derive(Clone, Copy)]
enum Known {
    Each,
    Last,
    NoOrder,
    /// The last, and by its code the number of words.
    Checked,
    Nested,
}

impl Known {
    fn of(entries: usize) -> &'static [Self] {
        match entries {
            1 => &[Self::Each],
            // a larger list of those would be over the budget
            64 => &[Self::Each, Self::Last, Self::NoOrder, Self::Checked, Self::Nested],
            _ => &[Self::Each, Self::Last, Self::NoOrder, Self::Checked],
        }
    }

    /// How many records there are after the closing.
    fn needed(self, entries: usize) -> usize {
        match self {
            Self::Last => 2,
            Self::Nested => 3 * entries + 1,
            _ => entries + 1,
        }
    }

    fn scene(self, entries: usize, records: usize) -> Scene {
        match self {
            Self::Each => Scene::new(Shape::Wide, entries + 1, records),
            Self::Last => Scene::lone(entries, records),
            Self::NoOrder => Scene::new(Shape::Scattered, entries + 1, records),
            Self::Checked => Scene::lone(entries, records).checked(entries),
            Self::Nested => Scene::nested(entries, records),
        }
    }

    /// What stands behind the number of facts.
    fn word(self) -> &'static str {
        match self {
            Self::Each | Self::Last => "",
            Self::NoOrder => " in no order",
            Self::Checked => ", the others filled in",
            Self::Nested => " in arrays of pairs and pairs",
        }
    }
}

fn closing(scene: &Scene, entries: usize, word: &str) {
    let ours = our_closing(scene, entries);
    let mut rust = 0.0;
    if published::AT_HAND {
        agreed::closing(scene);
        let mut closer = Closer::new(&scene.state(), published::least_words(&scene.code, 0, None));
        assert_eq!(argcol::text(&scene.list()), Ok(closer.text()), "the same text on both sides");
        rust = least(|calls| closer.batch(calls));
    }
    let (facts, records) = (scene.head.used - 1, scene.table.len() / RECORD);
    row(&[entries.to_string(), format!("{facts}{word}"), records.to_string(), ns(ours), ns(rust), ratio(ours, rust)]);
}
