//! Traces of the trace printer, as bytes and as text that a person reads and writes. Both forms hold any numbers, also
//! such as the core refuses.
//!
//! ```text
//! # a line is blank, a comment, or one of these; what is left out is 0 or none
//! code 0x6080           # several such lines are joined
//! start 12
//! packed 0x0a           # the packed word; `unpacked 0x0a` has the word, but the flag 0
//! step MUL pc 7         # an opcode's name or number
//!   first 0 arg 0 path 2 add 4 mask 0xff
//!   second 32           # operands and slots: a word and its label
//!   pick 1              # the memory entry that a copy finds, from 1 as document 01 has it; 0 is none
//!   load calldata       # a load label, its flag 1; `load-flag 0 calldata` has another
//!   slot 5 zero-test 4 path 1
//!   entry 64 replaced 1 calldata
//! ```
//!
//! A label is `none` (or nothing), `calldata`, `arg` or `zero-test` with what follows, or `numbers` and its 13 numbers.
//! There may be several lines of code, steps, slots and entries; each other line stands once, in the trace or in its
//! step. A pick counts from 1 here and from 0 in [`crate::Step`].

mod binary;
mod read;
mod run;
mod words;
mod write;

use crate::{ENTRY, SLOT, STEP, Word};
use alloc::{string::String, vec::Vec};
use core::fmt;

/// The most bytes of code that the printer takes.
pub const CODE_LIMIT: usize = 24_576;
/// The most slots, and the most entries, that a step has for the printer.
pub const COUNT_LIMIT: usize = 256;
/// The records of the printer's table.
pub const RECORDS: usize = 1_480;
/// The most numbers of steps, slots and entries that a text may have, 64 MB of them; a printer's bytes have no limit.
pub const NUMBERS_LIMIT: usize = 1 << 24;

/// A step with the stack and the memory that it is lent, in document 01's numbers.
#[derive(Clone, Debug, PartialEq, Eq)]
pub struct TraceStep {
    /// The step itself.
    pub numbers: [u32; STEP],
    /// The stack; the top is last.
    pub slots: Vec<[u32; SLOT]>,
    /// The memory.
    pub entries: Vec<[u32; ENTRY]>,
}

/// What the printer reads: steps on a fresh table, and the closing.
#[derive(Clone, Debug, Default, PartialEq, Eq)]
pub struct Trace {
    /// The bytecode.
    pub code: Vec<u8>,
    /// The pc at which the function's own code begins to run.
    pub start: u32,
    /// Whether the closing has a packed word.
    pub packed: bool,
    /// The packed word. It is there without the flag too.
    pub word: Word,
    /// The steps, in order.
    pub steps: Vec<TraceStep>,
}

impl TraceStep {
    /// Whether it has more slots or entries than the printer takes.
    fn is_over(&self) -> bool {
        self.slots.len().max(self.entries.len()) > COUNT_LIMIT
    }
}

/// What is wrong with a trace, and in which line of a text.
#[derive(Clone, Debug, PartialEq, Eq)]
#[non_exhaustive]
pub struct BadTrace {
    /// The line, from 1; none for bytes.
    pub line: Option<usize>,
    /// What is wrong, in words.
    pub reason: String,
}

impl fmt::Display for BadTrace {
    fn fmt(&self, f: &mut fmt::Formatter<'_>) -> fmt::Result {
        match self.line {
            Some(line) => write!(f, "line {line}: {}", self.reason),
            None => f.write_str(&self.reason),
        }
    }
}

impl core::error::Error for BadTrace {}

fn bad<T>(reason: &str) -> Result<T, BadTrace> {
    Err(BadTrace { line: None, reason: reason.into() })
}
