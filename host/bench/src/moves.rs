//! Steps to time.

use crate::scenes::Scene;
use argcol::{Arg, RECORD, STEP, Slot, Step, Word, op};

pub type Move = [u32; STEP];

/// How many loads in a row make a record each, between two looks at the clock.
pub const NEW: usize = 8;

fn step(op: u8, first: Slot, second: Slot) -> Move {
    (&Step::new(op).on_both(first, second)).into()
}

fn arg(arg: Arg) -> Slot {
    Slot::plain(0).with_label(arg)
}

fn load(offset: u32) -> Move {
    step(op::CALLDATALOAD, Slot::plain(offset.into()), Slot::default())
}

/// MUL by 32 of what word 0 leads to, the length of an array: every slot and entry with this label gets the word 1.
pub fn array_mark() -> Move {
    step(op::MUL, arg(Arg::at(0, 2)), Slot::plain(32))
}

pub fn revert() -> Move {
    step(op::REVERT, Slot::default(), Slot::default())
}

impl Scene {
    /// The last key that a step follows; loads are followed up to 130,047.
    fn last(&self) -> u32 {
        self.table
            .chunks(RECORD)
            .take(self.head.used as usize)
            .map(|record| record[0])
            .filter(|key| *key <= 130_043)
            .max()
            .unwrap()
    }

    /// Steps that leave the facts as they are when they are taken again.
    pub fn steps(&self) -> [(&'static str, Move); 4] {
        let address = Word([0, 0, 0, u32::MAX, u32::MAX, u32::MAX, u32::MAX, u32::MAX]);
        [
            ("POP", step(op::POP, Slot::default(), Slot::default())),
            ("ADD", step(op::ADD, arg(Arg::at(0, 1)), Slot::plain(4))),
            ("AND", step(op::AND, arg(Arg::at(0, 1)), Slot::from(address))),
            ("load of the last word", load(self.last() + 4)),
        ]
    }

    /// Loads from behind the last word, each from one byte further on, so that each makes a record in whatever table.
    pub fn new_loads(&self) -> [Move; NEW] {
        std::array::from_fn(|i| load(self.last() + 5 + i as u32))
    }

    /// A load below the last record but one, which has a child at key 0 in a deep table.
    pub fn far_down(&self) -> Move {
        step(op::CALLDATALOAD, arg(Arg::at(0, self.head.used - 1).with_added(36)), Slot::default())
    }
}

#[cfg(test)]
mod tests {
    use super::*;
    use crate::scenes::Shape;
    use argcol::{ENTRY, SLOT};

    #[test]
    fn an_array_mark_writes_every_fourth_value() {
        let mut scene = Scene::marked(14, 16, 16, 8);
        let table = scene.table.clone();
        // the top gets the product
        for _ in 0..2 {
            assert_eq!(scene.step(&array_mark()), 0);
            let words: Vec<u32> = scene.stack.chunks(SLOT).map(|slot| slot[7]).collect();
            assert_eq!(words, [1, 1, 2, 3, 1, 5, 6, 7, 1, 9, 10, 11, 1, 13, 14, 32]);
            let replaced: Vec<u32> = scene.memory.chunks(ENTRY).map(|entry| entry[1]).collect();
            assert_eq!((replaced, &scene.table), (vec![1, 0, 0, 0, 1, 0, 0, 0], &table));
        }
    }

    #[test]
    fn new_loads_make_a_record_each() {
        for records in [16, 64, 1_480, 16_384] {
            let mut scene = Scene::new(Shape::Wide, records - 2 - NEW, records).with(16, 4);
            for step in scene.new_loads() {
                let used = scene.head.used;
                assert_eq!((scene.step(&step), scene.head.used), (0, used + 1));
            }
        }
    }
}
