//! One call on all three sides, and every number compared: plain reading against proved core whatever the call is;
//! where it is taken, both against the published source.

mod closing;
mod step;
mod tally;
mod terms;

pub use closing::close;
pub use step::step;
pub use tally::Tally;
pub use terms::{ONE, paths, slots, state, tag};

use crate::{
    core::*,
    plain::Plain,
    proved::{self, Proved},
};

/// What one call after the other is handed.
#[derive(Clone, Debug)]
pub struct Scene {
    pub head: Head,
    pub table: Vec<u32>,
    pub code: Vec<u8>,
    pub stack: Vec<u32>,
    pub memory: Vec<u32>,
}

pub fn fresh(tally: &mut Tally, head: &mut Head, table: &mut [u32]) -> u32 {
    let (mut other_head, mut other_table) = (*head, table.to_vec());
    let number = Plain.fresh(head, table);
    tally.fresh += 1;
    if proved::AT_HAND {
        let said = Proved.fresh(&mut other_head, &mut other_table);
        if (said, other_head, &other_table[..]) != (number, *head, &table[..]) {
            tally.difference(
                "a fresh call",
                format!("plain {number} {head:?}, proved {said} {other_head:?}, {} numbers", table.len()),
            );
        }
    }
    number
}

pub fn text(tally: &mut Tally, codes: &[u16], out: &mut [u8]) -> u32 {
    let mut other = out.to_vec();
    let said = Plain.text(codes, out);
    tally.texts += 1;
    tally.text_numbers[said.0 as usize] += 1;
    if proved::AT_HAND {
        let proved = Proved.text(codes, &mut other);
        if proved != said || other != out {
            tally.difference(
                "a text call",
                format!("plain {said:?}, proved {proved:?}, room {}, codes {codes:?}", out.len()),
            );
        }
    }
    said.0
}
