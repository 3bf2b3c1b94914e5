//! A watched run: what the machine hands to `analyze`, as numbers, and our sides beside it.

use super::RECORDS;
use crate::{
    compare::{self, Scene, Tally},
    core::*,
};
use published::{Entry, Path, Slot, State, Step, Tag, Watcher, Word};
use std::{collections::HashMap, time::Duration};

pub type Call = (Vec<u32>, Vec<u32>, Vec<u32>);

pub struct Ours<'a> {
    pub tally: &'a mut Tally,
    pub scene: Scene,
    /// Where the function begins, and the packed word.
    pub start: Option<(usize, Option<Word>)>,
    /// The entries' bytes before the step, which our numbers do not hold.
    memory: Vec<Vec<u8>>,
    pub steps: u64,
    /// Each step as it was handed in: its numbers, slots and entries.
    pub calls: Vec<Call>,
    /// The source's time.
    pub spent: Duration,
}

impl<'a> Ours<'a> {
    /// A fresh table, in place of one that holds `old` everywhere.
    pub fn begin(tally: &'a mut Tally, code: &[u8], old: u32) -> Self {
        let scene = Scene {
            head: Head::default(),
            table: vec![old; RECORDS * RECORD],
            code: code.to_vec(),
            stack: Vec::new(),
            memory: Vec::new(),
        };
        let mut ours =
            Ours { tally, scene, start: None, memory: Vec::new(), steps: 0, calls: Vec::new(), spent: Duration::ZERO };
        compare::fresh(ours.tally, &mut ours.scene.head, &mut ours.scene.table);
        ours
    }

    /// The step as numbers; none if a path or the place is in none of our records or numbers.
    fn numbers(&self, step: &Step, stack: &[Slot], memory: &[Entry]) -> Option<Call> {
        let records: HashMap<Path, u32> = compare::paths(&self.scene.table, self.scene.head.used)
            .into_iter()
            .enumerate()
            .skip(1)
            .map(|(n, path)| (path, n as u32))
            .collect();
        let slot = |slot: &Slot| Some([&word_numbers(&slot.word)[..], &put_label(&slot.tag, &records)?].concat());
        let mut slots = Vec::new();
        for held in stack {
            slots.extend(slot(held)?);
        }
        let mut entries = Vec::new();
        for held in memory {
            entries.extend([held.offset, 0]);
            entries.extend(put_label(&held.tag, &records)?);
        }
        let mut numbers = vec![u32::from(step.op), u32::try_from(step.pc).ok()?];
        numbers.extend(slot(&step.args[0])?);
        numbers.extend(slot(&step.args[1])?);
        numbers.push(pick(step, numbers[30], memory));
        let load = load_label(step, &records)?;
        numbers.push(u32::from(load[0] != 0));
        numbers.extend(load);
        Some((numbers, slots, entries))
    }
}

fn put_label(tag: &Tag, records: &HashMap<Path, u32>) -> Option<[u32; LABEL]> {
    let mut out = [0; LABEL];
    let (kind, arg) = match tag {
        Tag::None => return Some(out),
        Tag::CallData => {
            out[0] = 1;
            return Some(out);
        }
        Tag::Arg(arg) => (2, arg),
        Tag::ZeroTest(arg) => (3, arg),
    };
    out[..5].copy_from_slice(&[kind, arg.offset, *records.get(&arg.path)?, arg.added, u32::from(arg.mask.is_some())]);
    out[5..].copy_from_slice(&arg.mask.map_or([0; 8], |mask| word_numbers(&mask)));
    Some(out)
}

/// The entry that a copy to this place meets, as document 01 counts it: 0 if there is none.
fn pick(step: &Step, offset: u32, memory: &[Entry]) -> u32 {
    if step.op == 0x37 {
        memory.iter().rposition(|entry| entry.offset == offset).map_or(0, |at| at as u32 + 1)
    } else {
        0
    }
}

/// The label of a load of one whole word; all else has none.
fn load_label(step: &Step, records: &HashMap<Path, u32>) -> Option<[u32; LABEL]> {
    match &step.load {
        Some((32, chunks)) if step.op == 0x51 && chunks.len() == 1 && chunks[0].from == 0 && chunks[0].to == 32 => {
            put_label(&chunks[0].tag, records)
        }
        _ => Some([0; LABEL]),
    }
}

impl Watcher for Ours<'_> {
    fn start(&mut self, pc: usize, packed: Option<Word>) {
        self.start = Some((pc, packed));
    }

    fn before(&mut self, step: &Step, stack: &[Slot], memory: &[Entry]) {
        self.steps += 1;
        self.memory = memory.iter().map(|entry| entry.bytes.clone()).collect();
        match self.numbers(step, stack, memory) {
            Some((numbers, slots, entries)) => {
                self.calls.push((numbers.clone(), slots.clone(), entries.clone()));
                (self.scene.stack, self.scene.memory) = (slots, entries);
                let number = compare::step(self.tally, &mut self.scene, &numbers, 0);
                if number != 0 {
                    self.tally
                        .difference("a run", format!("step {} of a run refused by {number}: {step:?}", self.steps));
                }
            }
            None => self.tally.difference("a run", format!("a label's path is no record: {step:?}")),
        }
    }

    fn took(&mut self, time: Duration) {
        self.spent += time;
    }

    fn after(&mut self, failed: bool, state: &State, stack: &[Slot], memory: &[Entry]) {
        let paths = compare::paths(&self.scene.table, self.scene.head.used);
        let slots = compare::slots(&self.scene.stack, &paths);
        let bytes = |i: usize, mark: u32| if mark == 1 { compare::ONE.to_vec() } else { self.memory[i].clone() };
        let entries: Vec<Entry> = self
            .scene
            .memory
            .chunks(ENTRY)
            .enumerate()
            .map(|(i, n)| Entry { offset: n[0], bytes: bytes(i, n[1]), tag: compare::tag(&n[2..15], &paths) })
            .collect();
        let ours = compare::state(&self.scene.table, self.scene.head, &paths);
        if failed || &ours != state || slots != stack || entries != memory {
            self.tally.difference(
                "a run",
                format!(
                    "after step {}\nours {ours:?} {slots:?} {entries:?}\npublished {state:?} {stack:?} {memory:?}",
                    self.steps
                ),
            );
        }
    }
}
