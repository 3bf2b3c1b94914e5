//! Sound tables, stacks and memories to time.

use crate::moves::{Move, array_mark};
use argcol::{
    Arg, ENTRY, Entry, Label, RECORD, SLOT, Slot, TYPES,
    raw::{self, Answered, Head},
};

#[derive(Clone, Copy)]
pub enum Shape {
    /// All below the root, keys rising with the numbers.
    Wide,
    /// All below the root, keys in no order.
    Scattered,
    /// Each below the one before.
    Deep,
    /// Up to 128 below each.
    Bushy,
}

impl Shape {
    pub const ALL: [(&str, Self); 4] =
        [("wide", Self::Wide), ("scattered", Self::Scattered), ("deep", Self::Deep), ("bushy", Self::Bushy)];
}

#[derive(Clone)]
pub struct Scene {
    pub head: Head,
    pub table: Vec<u32>,
    pub code: Vec<u8>,
    pub stack: Vec<u32>,
    pub memory: Vec<u32>,
}

/// Names and their confidence, one after the other.
const NAMES: [(u32, u32); 8] = [(0, 0), (2, 5), (1, 5), (1008, 5), (3004, 5), (1256, 5), (2128, 20), (3032, 5)];

/// The words from 0 in no order, the same ones in every run: a shuffle by a splitmix64 generator. A stride would not
/// do, since a cache guesses it.
fn shuffled(count: usize) -> Vec<usize> {
    let mut words: Vec<usize> = (0..count).collect();
    let mut state = 0u64;
    for i in (1..count).rev() {
        state = state.wrapping_add(0x9e37_79b9_7f4a_7c15);
        let mixed = (state ^ state >> 30).wrapping_mul(0xbf58_476d_1ce4_e5b9);
        let mixed = (mixed ^ mixed >> 27).wrapping_mul(0x94d0_49bb_1331_11eb);
        words.swap(i, ((mixed ^ mixed >> 31) % (i as u64 + 1)) as usize);
    }
    words
}

impl Scene {
    pub fn new(shape: Shape, used: usize, records: usize) -> Self {
        let words = shuffled(used - 1);
        let place = |n: usize| match shape {
            Shape::Wide => (1, n - 2),
            Shape::Scattered => (1, words[n - 2]),
            Shape::Deep => (n - 1, 0),
            Shape::Bushy => ((n - 2) / 128 + 1, (n - 2) % 128),
        };
        let places: Vec<(usize, u32)> =
            (2..=used).map(place).map(|(parent, word)| (parent, 32 * word as u32)).collect();
        Self::of(&places, records)
    }

    /// One argument, the last of so many words.
    pub fn lone(entries: usize, records: usize) -> Self {
        Self::of(&[(1, 32 * (entries as u32 - 1))], records)
    }

    /// An array of pairs and a pair by turns: three records to an entry, its own before those of its parts.
    pub fn nested(entries: usize, records: usize) -> Self {
        let places = (0..entries).flat_map(|i| {
            let (own, first) = (3 * i + 2, if i % 2 == 0 { 32 } else { 0 });
            [(1, 32 * i as u32), (own, first), (own, first + 32)]
        });
        let mut scene = Self::of(&places.collect::<Vec<_>>(), records);
        for (i, parts) in scene.table[RECORD..].chunks_mut(3 * RECORD).take(entries).enumerate() {
            let (kind, count) = if i % 2 == 0 { (2, 2) } else { (1, 1) };
            parts[7..RECORD].copy_from_slice(&[kind, count, 0, 0]);
        }
        scene
    }

    /// With a code that begins with the test of a least length, of so many words.
    pub fn checked(mut self, words: usize) -> Self {
        let [.., high, middle, low] = (4 + 32 * words as u32).to_be_bytes();
        self.code[..6].copy_from_slice(&[0x62, high, middle, low, 0x36, 0x10]);
        self
    }

    fn of(places: &[(usize, u32)], records: usize) -> Self {
        let used = places.len() + 1;
        let mut table = vec![0; RECORD * records];
        table[4] = 1;
        let mut children = vec![Vec::new(); used + 1];
        for (i, &(parent, key)) in places.iter().enumerate() {
            children[parent].push((key, i + 2));
            let (name, confidence) = NAMES[i % NAMES.len()];
            table[RECORD * (i + 1)..RECORD * (i + 2)].copy_from_slice(&[
                key,
                parent as u32,
                0,
                0,
                1,
                0,
                0,
                0,
                0,
                name,
                confidence,
            ]);
        }
        for (n, chain) in children.iter_mut().enumerate().skip(1) {
            chain.sort();
            let mut at = RECORD * (n - 1) + 2;
            for &(_, child) in &*chain {
                table[at] = child as u32;
                at = RECORD * (child - 1) + 3;
            }
        }
        Self { head: Head::new(used as u32, 1), table, code: vec![0x5b; 1000], stack: Vec::new(), memory: Vec::new() }
    }

    /// With a stack and a memory in which every fourth value is an argument.
    pub fn with(self, slots: usize, entries: usize) -> Self {
        self.holding(slots, entries, Arg::at(0, 1).with_added(4))
    }

    fn holding(mut self, slots: usize, entries: usize, arg: Arg) -> Self {
        let label = |i: usize| match i % 4 {
            0 => Label::Arg(arg),
            2 => Label::CallData,
            _ => Label::None,
        };
        self.stack = (0..slots).flat_map(|i| <[u32; SLOT]>::from(Slot::plain(i as u64).with_label(label(i)))).collect();
        self.memory = (0..entries)
            .flat_map(|i| <[u32; ENTRY]>::from(Entry { offset: 32 * i as u32, replaced: false, label: label(i) }))
            .collect();
        self
    }

    /// A wide table after an array mark on word 0, with the record of its not-bool mark as the last; every fourth value
    /// has the label that was marked, but not yet the word 1.
    pub fn marked(used: usize, records: usize, slots: usize, entries: usize) -> Self {
        let label = Arg::at(0, 2);
        let mut scene = Self::new(Shape::Wide, used - 1, records).holding(1, 0, label);
        assert_eq!((scene.step(&array_mark()), scene.head.used as usize), (0, used));
        scene.holding(slots, entries, label)
    }

    /// The answer of our step.
    pub fn step(&mut self, step: &Move) -> u32 {
        raw::step(&mut self.head, &mut self.table, &self.code, &mut self.stack, &mut self.memory, step)
    }

    pub fn close(&mut self, types: &mut [u16]) -> Answered {
        raw::closing(&mut self.head, &mut self.table, &self.code, 0, 0, &[0; 8], types)
    }

    /// The codes of the list that a closing grants.
    pub fn list(&self) -> Vec<u16> {
        let mut types = vec![0; TYPES];
        let said = self.clone().close(&mut types);
        assert_eq!((said.number, said.kind), (0, 3));
        // no code is 0, and nothing is written beyond the last
        types.retain(|code| *code != 0);
        types
    }
}

#[cfg(test)]
mod tests {
    use super::*;
    use std::collections::HashMap;

    #[test]
    fn nested_entries_are_an_array_of_pairs_and_a_pair_by_turns() {
        let text = argcol::text(&Scene::nested(3, 10).list());
        assert_eq!(text.unwrap(), "(address,bool)[],(bytes4,uint256),(bytes32,uint256)[]");
    }

    #[test]
    fn a_checked_length_fills_the_head() {
        for words in [64, 4_064] {
            let mut scene = Scene::lone(words, words + 1).checked(words);
            assert_eq!(scene.close(&mut vec![0; TYPES]).entries as usize, words);
            assert_eq!(scene.head.used as usize, words + 1);
        }
    }

    /// Every word has one record, and the chain goes from one to the next by no stride, that of 1 included.
    #[test]
    fn a_scattered_chain_jumps_about() {
        for used in [16, 62, 64, 65, 1_024, 1_478, 1_480, 2_048, 4_065, 4_096, 8_192, 16_382, 16_384] {
            let scene = Scene::new(Shape::Scattered, used, used);
            let record = |n: u32| &scene.table[RECORD * (n as usize - 1)..];
            let chain: Vec<u32> =
                std::iter::successors(Some(record(1)[2]), |n| Some(record(*n)[3]).filter(|next| *next != 0)).collect();
            let keys: Vec<u32> = chain.iter().map(|n| record(*n)[0]).collect();
            assert_eq!(keys, (0..used as u32 - 1).map(|word| 32 * word).collect::<Vec<_>>());
            let mut strides = HashMap::new();
            chain.windows(2).for_each(|pair| *strides.entry(pair[1].wrapping_sub(pair[0])).or_insert(0) += 1);
            // as often as chance has it; a constant stride would be met hundreds of times
            assert!(
                strides.values().all(|count| *count <= 8) && strides.get(&1).is_none_or(|count| *count <= 2),
                "{used}"
            );
        }
    }
}
