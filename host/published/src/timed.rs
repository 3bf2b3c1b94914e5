//! The published functions alone under a clock: what they are handed is made before, and what they give is dropped
//! after.

use super::super::*;
use super::{element, entries_of, pieces, result_of, results, state};
use crate::forms::{Entry, Slot, State, Step};
use std::{
    hint::black_box,
    time::{Duration, Instant},
};

pub struct Stepper<'a> {
    vm: Vm<'a, Label, CallDataImpl>,
    args: ArgsResult,
    step: Step,
    /// The key below the root that the step makes, if it makes one.
    made: Option<u32>,
}

impl<'a> Stepper<'a> {
    pub fn new(code: &'a [u8], held: &State, stack: &[Slot], memory: &[Entry], step: &Step) -> Self {
        let mut vm = Vm::new(code, Box::leak(Box::new(CallDataImpl { selector: [0; 4] })));
        vm.pc = step.pc;
        vm.stack.data = stack.iter().map(element).collect();
        vm.memory.data = entries_of(memory);
        let mut stepper = Self { vm, args: results(held), step: step.clone(), made: None };
        stepper.batch(1);
        let made = made(&stepper.args, held);
        take_back(&mut stepper.args, &made);
        Self { made: made.first().copied(), ..stepper }
    }

    /// The step again and again, on what the one before left. One that makes a record would make none the second time:
    /// each loads from one byte further on than the one before, and at the end, off the clock, their records are taken
    /// back.
    pub fn batch(&mut self, calls: usize) -> Duration {
        let handed: Vec<_> = (0..calls).map(|call| self.handed(call)).collect();
        let start = Instant::now();
        for ret in handed {
            black_box(super::super::analyze(&mut self.vm, &mut self.args, ret).is_err());
        }
        let time = start.elapsed();
        if let Some(key) = self.made {
            take_back(&mut self.args, &Vec::from_iter(key..key + calls as u32));
        }
        time
    }

    fn handed(&self, call: usize) -> StepResult<Label> {
        let mut ret = result_of(&self.step);
        if self.made.is_some() {
            ret.args[0].data = (U256::from_be_bytes(ret.args[0].data) + U256::from(call)).to_be_bytes();
        }
        ret
    }

    pub fn state(&self) -> State {
        state(&self.args)
    }
}

/// The keys below the root that were not held.
fn made(args: &ArgsResult, held: &State) -> Vec<u32> {
    args.data
        .children
        .keys()
        .copied()
        .filter(|key| held.facts.binary_search_by(|fact| fact.path[..].cmp(&[*key])).is_err())
        .collect()
}

fn take_back(args: &mut ArgsResult, made: &[u32]) {
    for key in made {
        args.data.children.remove(key);
    }
}

pub struct Closer {
    args: ArgsResult,
    words: Option<usize>,
    /// The keys that the tail fills in.
    filled: Vec<u32>,
}

impl Closer {
    pub fn new(held: &State, words: Option<usize>) -> Self {
        let mut args = results(held);
        pieces::tail(&mut args, words);
        let filled = made(&args, held);
        take_back(&mut args, &filled);
        Self { args, words, filled }
    }

    /// The tail again and again. What it fills in is taken back after each call, off the clock.
    pub fn batch(&mut self, calls: usize) -> Duration {
        let (groups, each) = if self.filled.is_empty() { (1, calls) } else { (calls, 1) };
        let mut time = Duration::ZERO;
        for _ in 0..groups {
            let mut lists = Vec::with_capacity(each);
            let start = Instant::now();
            for _ in 0..each {
                lists.push(black_box(pieces::tail(&mut self.args, black_box(self.words))));
            }
            time += start.elapsed();
            take_back(&mut self.args, &self.filled);
        }
        time
    }

    fn list(&mut self) -> Vec<DynSolType> {
        let list = pieces::tail(&mut self.args, self.words);
        take_back(&mut self.args, &self.filled);
        list
    }

    /// The list's types named and joined, with the stand-in's names.
    pub fn text_batch(&mut self, calls: usize) -> Duration {
        let list = self.list();
        let start = Instant::now();
        for _ in 0..calls {
            black_box(black_box(&list).iter().map(DynSolType::name).collect::<Vec<_>>().join(","));
        }
        start.elapsed()
    }

    pub fn text(&mut self) -> String {
        self.list().iter().map(DynSolType::name).collect::<Vec<_>>().join(",")
    }
}
