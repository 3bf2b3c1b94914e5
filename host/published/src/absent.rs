//! Without the source there is nothing to call; a caller asks `AT_HAND` first.

use crate::forms::{Answer, Entry, Slot, State, Step, Watcher, Word};

const MISSING: &str = "the published source is not at hand";

pub fn analyze(_: &[u8], _: &mut State, _: &mut Vec<Slot>, _: &mut Vec<Entry>, _: &Step) -> bool {
    panic!("{MISSING}")
}

pub fn least_words(_: &[u8], _: usize, _: Option<Word>) -> Option<usize> {
    panic!("{MISSING}")
}

pub fn close(_: &[u8], _: usize, _: Option<Word>, _: &mut State) -> Answer {
    panic!("{MISSING}")
}

pub fn watch(_: &[u8], _: [u8; 4], _: u32, _: &mut dyn Watcher) -> Vec<u16> {
    panic!("{MISSING}")
}

pub fn arguments(_: &[u8], _: [u8; 4], _: u32) -> Vec<u16> {
    panic!("{MISSING}")
}

pub fn mask_type(_: Word) -> u32 {
    panic!("{MISSING}")
}

pub fn guard_failure(_: &[u8], _: usize, _: bool) -> Option<usize> {
    panic!("{MISSING}")
}

pub fn points() -> Vec<(&'static str, u32, &'static str, u64)> {
    Vec::new()
}

pub mod timed {
    use super::{Entry, MISSING, Slot, State, Step};
    use std::{marker::PhantomData, time::Duration};

    pub struct Stepper<'a>(PhantomData<&'a ()>);

    impl<'a> Stepper<'a> {
        pub fn new(_: &'a [u8], _: &State, _: &[Slot], _: &[Entry], _: &Step) -> Self {
            panic!("{MISSING}")
        }

        pub fn batch(&mut self, _: usize) -> Duration {
            panic!("{MISSING}")
        }

        pub fn state(&self) -> State {
            panic!("{MISSING}")
        }
    }

    pub struct Closer;

    impl Closer {
        pub fn new(_: &State, _: Option<usize>) -> Self {
            panic!("{MISSING}")
        }

        pub fn batch(&mut self, _: usize) -> Duration {
            panic!("{MISSING}")
        }

        pub fn text_batch(&mut self, _: usize) -> Duration {
            panic!("{MISSING}")
        }

        pub fn text(&mut self) -> String {
            panic!("{MISSING}")
        }
    }
}
