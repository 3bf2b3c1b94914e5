//! What goes in and out, in forms that need nothing of the source.

use std::collections::BTreeSet;

pub type Word = [u8; 32];
pub type Path = Vec<u32>;

#[derive(Clone, Debug, PartialEq, Eq)]
pub struct Arg {
    pub offset: u32,
    pub path: Path,
    pub added: u32,
    pub mask: Option<Word>,
}

#[derive(Clone, Debug, PartialEq, Eq, Default)]
pub enum Tag {
    #[default]
    None,
    CallData,
    Arg(Arg),
    ZeroTest(Arg),
}

#[derive(Clone, Debug, PartialEq, Eq, Default)]
pub struct Slot {
    pub word: Word,
    pub tag: Tag,
}

#[derive(Clone, Debug, PartialEq, Eq)]
pub struct Entry {
    pub offset: u32,
    pub bytes: Vec<u8>,
    pub tag: Tag,
}

/// Kind, count and name in document 01's numbers.
#[derive(Clone, Debug, PartialEq, Eq, PartialOrd, Ord)]
pub struct Fact {
    pub path: Path,
    pub kind: u32,
    pub count: u32,
    pub name: u32,
    pub confidence: u32,
    pub blocked: bool,
}

/// Facts by rising path, the root first.
#[derive(Clone, Debug, PartialEq, Eq)]
pub struct State {
    pub facts: Vec<Fact>,
    pub not_bool: BTreeSet<Path>,
    pub active: bool,
}

/// One chunk that a memory load met.
#[derive(Clone, Debug)]
pub struct Chunk {
    pub from: usize,
    pub to: usize,
    pub tag: Tag,
}

#[derive(Clone, Debug)]
pub struct Step {
    pub op: u8,
    pub pc: usize,
    pub args: [Slot; 2],
    /// Size and chunks of a memory load.
    pub load: Option<(u32, Vec<Chunk>)>,
}

#[derive(Clone, Debug, PartialEq, Eq)]
pub enum Answer {
    None,
    Over,
    /// Budget left, number of entries, and the entries' codes in a row.
    Granted(usize, usize, Vec<u16>),
}

/// What a watched run shows: the start, and each step before and after `analyze`.
pub trait Watcher {
    fn start(&mut self, pc: usize, packed: Option<Word>);
    fn before(&mut self, step: &Step, stack: &[Slot], memory: &[Entry]);
    fn after(&mut self, failed: bool, state: &State, stack: &[Slot], memory: &[Entry]);
    /// How long `analyze` itself took.
    fn took(&mut self, _: std::time::Duration) {}
}
