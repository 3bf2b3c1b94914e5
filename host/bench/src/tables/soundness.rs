use crate::{
    calls::soundness,
    printed::{ns, row, title},
    reads::reads,
    scenes::{Scene, Shape},
};
use argcol::RECORD;

pub fn soundnesses() {
    title("Soundness", "table | records | used | ours | ns a record | one by one | vectorized");
    for (name, shape) in Shape::ALL {
        for records in [16, 64, 1_480, 16_384] {
            of(name, &Scene::new(shape, records, records));
        }
    }
    for records in [1_480, 16_384] {
        of("fresh", &Scene::new(Shape::Wide, 1, records));
    }
}

fn of(name: &str, scene: &Scene) {
    let records = scene.table.len() / RECORD;
    let (ours, read) = (soundness(scene), reads(&[&scene.table]));
    let times = [ns(ours), format!("{:.2}", ours / records as f64), ns(read.one_by_one), ns(read.vectorized)];
    row(&[&[name.into(), records.to_string(), scene.head.used.to_string()][..], &times].concat());
}
