//! From numbers to the published source's terms: paths in place of record numbers, words as bytes.

use crate::core::*;
use crate::plain::numbers::*;
use published::{Arg, Chunk, Entry, Fact, Path, Slot, State, Tag};

/// The path of each record; those of 0, which is none, and 1 are empty.
pub fn paths(table: &[u32], used: u32) -> Vec<Path> {
    let mut paths: Vec<Path> = vec![Vec::new(), Vec::new()];
    for record in table.chunks(RECORD).take(used as usize).skip(1) {
        let mut path = paths[record[PARENT] as usize].clone();
        path.push(record[KEY]);
        paths.push(path);
    }
    paths
}

pub fn state(table: &[u32], head: Head, paths: &[Path]) -> State {
    let records = || table.chunks(RECORD).take(head.used as usize).zip(&paths[1..]);
    let mut facts: Vec<Fact> = records()
        .filter(|(f, _)| f[SEEN] == 1)
        .map(|(f, path)| Fact {
            path: path.clone(),
            kind: f[KIND],
            count: f[COUNT],
            name: f[NAME],
            confidence: f[CONFIDENCE],
            blocked: f[BLOCKED] == 1,
        })
        .collect();
    facts.sort();
    State {
        facts,
        not_bool: records().filter(|(f, _)| f[NOT_BOOL] == 1).map(|(_, path)| path.clone()).collect(),
        active: head.active == 1,
    }
}

pub fn tag(label: &[u32], paths: &[Path]) -> Tag {
    let arg = || Arg {
        offset: label[1],
        path: paths[label[2] as usize].clone(),
        added: label[3],
        mask: (label[4] == 1).then(|| word_bytes(&label[5..13])),
    };
    match label[0] {
        0 => Tag::None,
        CALL_DATA => Tag::CallData,
        ARG => Tag::Arg(arg()),
        _ => Tag::ZeroTest(arg()),
    }
}

pub fn slot(numbers: &[u32], paths: &[Path]) -> Slot {
    Slot { word: word_bytes(numbers), tag: tag(&numbers[8..21], paths) }
}

pub fn slots(stack: &[u32], paths: &[Path]) -> Vec<Slot> {
    stack.chunks(SLOT).map(|numbers| slot(numbers, paths)).collect()
}

/// The word 1, which an entry's replaced mark stands for.
pub const ONE: [u8; 32] = {
    let mut word = [0; 32];
    word[31] = 1;
    word
};

/// Bytes that stand for "not replaced": no word 1.
fn other_bytes(i: usize) -> Vec<u8> {
    vec![0xa0 + (i % 7) as u8; 1 + i % 40]
}

pub fn entries(memory: &[u32], paths: &[Path]) -> Vec<Entry> {
    let bytes = |i: usize, replaced: u32| if replaced == 1 { ONE.to_vec() } else { other_bytes(i) };
    memory
        .chunks(ENTRY)
        .enumerate()
        .map(|(i, n)| Entry { offset: n[0], bytes: bytes(i, n[1]), tag: tag(&n[2..15], paths) })
        .collect()
}

/// A load that the flag 0 stands for, in one of the forms that it has; or the one of flag 1.
pub fn load(step: &[u32], paths: &[Path], form: u32) -> Option<(u32, Vec<Chunk>)> {
    let chunk = |from, to| Chunk { from, to, tag: Tag::Arg(Arg { offset: 64, path: vec![32], added: 0, mask: None }) };
    if step[45] == 1 {
        return Some((32, vec![Chunk { from: 0, to: 32, tag: tag(&step[46..59], paths) }]));
    }
    match form % 6 {
        0 => None,
        1 => Some((32, vec![])),
        2 => Some((32, vec![chunk(0, 31)])),
        3 => Some((32, vec![chunk(1, 32)])),
        4 => Some((32, vec![chunk(0, 16), chunk(16, 32)])),
        _ => Some((64, vec![chunk(0, 32)])),
    }
}

/// Does the pick say what `Memory::get_mut` finds? Only a copy looks.
pub fn picks(step: &[u32], memory: &[u32]) -> bool {
    let found = memory.chunks(ENTRY).rposition(|entry| entry[0] == step[30]).map_or(0, |at| at as u32 + 1);
    step[0] != 0x37 || step[44] == found
}
