//! The argument column's proved core for a Rust host.
//!
//! A [`Session`] holds the facts about one function's arguments. The machine that runs the bytecode hands it one
//! labelled [`Step`] after the other, with its [`Stack`] and its [`Memory`] as they are after the opcode ran; a step
//! may put labels there, which the machine carries on. [`Session::close`] gives the list of ABI types, and
//! [`Session::facts`] what is known so far. Every call is either taken or [`Refused`] by one question, and a refused
//! call changes nothing.
//!
//! The calls are functions of a static library that is proved in Rattle (`crates/argcol`); this crate converts and
//! links, and is not proved. Crate and library have a version, which a session and a text call compare: another one is
//! an [`Error::Version`]. The calls take no memory and have no state of their own, so that sessions may run side by
//! side. They call themselves once for each level of the facts, with 64 bytes of the calling thread's stack for each: the
//! deepest facts that a table can hold (16,384 records in one chain) take 1.06 MB.
//!
//! Two loads and a multiplication by 32, which an array's decoder does:
//!
//! ```
//! use argcol::{Arg, MOST_RECORDS, Memory, Session, Slot, Stack, Step, op};
//!
//! let mut session = Session::growing(64, MOST_RECORDS)?;
//! let (mut stack, mut memory) = (Stack::from([Slot::plain(5)]), Memory::new());
//! let steps = [
//!     Step::new(op::CALLDATALOAD).on(Slot::plain(4)),
//!     Step::new(op::CALLDATALOAD).on(Slot::plain(0).with_label(Arg::at(0, 1).with_added(4))),
//!     Step::new(op::MUL).on_both(Slot::plain(0).with_label(Arg::at(0, 2)), Slot::plain(32)),
//! ];
//! for step in &steps {
//!     session.step(&[], &mut stack, &mut memory, step)?;
//! }
//! let list = session.close(&[], 0, None)?.into_list().expect("an argument is known");
//! assert_eq!(list.to_string(), "uint256[]");
//! assert_eq!((list.types().len(), list.left(), list.head_length()), (1, 8189, 32));
//! # Ok::<(), argcol::Error>(())
//! ```

#![no_std]

extern crate alloc;

mod closing;
mod entry;
mod error;
mod fact;
mod held;
mod label;
mod layout;
mod list;
mod memory;
mod numbers;
pub mod op;
pub mod raw;
mod refused;
mod session;
mod slot;
mod stack;
mod step;
pub mod trace;
mod types;
mod word;

pub use closing::{Closing, Codes, Outcome};
pub use entry::Entry;
pub use error::Error;
pub use fact::{Fact, Facts, Kind};
pub use label::{Arg, Label};
pub use layout::{ENTRY, LABEL, MOST_CODE, MOST_ENTRIES, MOST_RECORDS, MOST_SLOTS, RECORD, SLOT, STEP, TYPES};
pub use list::List;
pub use memory::{Entries, IntoEntries, Memory};
pub use numbers::{BadNumbers, NoSuchPlace};
pub use raw::Head;
pub use refused::Refused;
pub use session::{Session, Taken};
pub use slot::Slot;
pub use stack::{IntoSlots, Slots, Stack};
pub use step::Step;
pub use types::{Type, text, text_into};
pub use word::{ParseWordError, Word};
