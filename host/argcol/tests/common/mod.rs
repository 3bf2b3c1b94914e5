//! Steps that several tests make, and what they get.

// no test uses all of it
#![allow(dead_code)]

use argcol::{Arg, Closing, List, RECORD, Slot, Step, op};

/// The root of a fresh table.
pub const ROOT: [u32; RECORD] = [0, 0, 0, 0, 1, 0, 0, 0, 0, 0, 0];

/// PUSH1 44 CALLDATASIZE LT: two argument words have to be there.
pub const TWO_WORDS: [u8; 4] = [0x60, 0x44, 0x36, 0x10];

/// The word 0 with the label of an argument.
pub fn labelled(arg: Arg) -> Slot {
    Slot::plain(0).with_label(arg)
}

pub fn load(place: u32) -> Step {
    Step::new(op::CALLDATALOAD).on(Slot::plain(place.into()))
}

pub fn load_at(arg: Arg) -> Step {
    Step::new(op::CALLDATALOAD).on(labelled(arg))
}

/// MUL by 32, which an array's decoder does.
pub fn times_32(arg: Arg) -> Step {
    Step::new(op::MUL).on_both(labelled(arg), Slot::plain(32))
}

pub fn granted(closing: Closing) -> List {
    let shown = closing.to_string();
    closing.into_list().unwrap_or_else(|| panic!("{shown}"))
}
