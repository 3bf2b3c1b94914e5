//! Scenes in the published source's terms: facts by their paths, and the like.

use crate::scenes::Scene;
use argcol::{Arg, Entry, Label, RECORD, STEP, Slot, Step};
use published::{self as rust, Fact, Path, State, Tag};

impl Scene {
    fn paths(&self) -> Vec<Path> {
        let mut paths: Vec<Path> = vec![Vec::new(), Vec::new()];
        for record in self.table.chunks(RECORD).take(self.head.used as usize).skip(1) {
            let path = [&paths[record[1] as usize][..], &[record[0]]].concat();
            paths.push(path);
        }
        paths
    }

    pub fn state(&self) -> State {
        let paths = self.paths();
        let records = || self.table.chunks(RECORD).zip(&paths[1..]);
        let fact = |(f, path): (&[u32], &Path)| Fact {
            path: path.clone(),
            kind: f[7],
            count: f[8],
            name: f[9],
            confidence: f[10],
            blocked: f[6] == 1,
        };
        let mut facts: Vec<Fact> = records().filter(|(f, _)| f[4] == 1).map(fact).collect();
        // the published source's order, whatever the numbers
        facts.sort_by(|a, b| a.path.cmp(&b.path));
        let not_bool = records().filter(|(f, _)| f[5] == 1).map(|(_, path)| path.clone());
        State { facts, not_bool: not_bool.collect(), active: self.head.active == 1 }
    }

    /// Stack, memory and step in the published source's terms.
    pub fn published(&self, step: &[u32; STEP]) -> (Vec<rust::Slot>, Vec<rust::Entry>, rust::Step) {
        let paths = self.paths();
        let stack: Vec<Slot> = self.stack.as_chunks().0.iter().map(|numbers| numbers.try_into().unwrap()).collect();
        let memory: Vec<Entry> = self.memory.as_chunks().0.iter().map(|numbers| numbers.try_into().unwrap()).collect();
        let step = Step::try_from(step).unwrap();
        let bytes = |replaced: bool| [vec![0; 31], vec![u8::from(replaced)]].concat();
        let entry = |entry: &Entry| rust::Entry {
            offset: entry.offset,
            bytes: bytes(entry.replaced),
            tag: tag(&entry.label, &paths),
        };
        let slot = |slot: &Slot| rust::Slot { word: slot.word.into(), tag: tag(&slot.label, &paths) };
        let handed =
            rust::Step { op: step.op, pc: step.pc as usize, args: step.operands.each_ref().map(slot), load: None };
        (stack.iter().map(slot).collect(), memory.iter().map(entry).collect(), handed)
    }
}

fn tag(label: &Label, paths: &[Path]) -> Tag {
    let arg = |arg: &Arg| rust::Arg {
        offset: arg.offset,
        path: paths[arg.path as usize].clone(),
        added: arg.added,
        mask: arg.mask.map(Into::into),
    };
    match label {
        Label::None => Tag::None,
        Label::CallData => Tag::CallData,
        Label::Arg(a) => Tag::Arg(arg(a)),
        Label::ZeroTest(a) => Tag::ZeroTest(arg(a)),
    }
}
