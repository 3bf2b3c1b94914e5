//! Runs whose lists are compared.

use super::{SELECTOR, watched::Ours};
use crate::{
    compare::{self, Tally},
    core::*,
};

/// One contract: steps of the run and length of the list, none if no function was found in it.
pub fn run(code: &[u8], tally: &mut Tally) -> Option<(u64, usize)> {
    let mut ours = Ours::begin(tally, code, 7);
    let watched = published::watch(code, SELECTOR, 0, &mut ours);
    let published = published::arguments(code, SELECTOR, 0);
    let Ours { tally, mut scene, start, steps, .. } = ours;
    if watched != published {
        tally.difference("a run", format!("watched {watched:?}, published {published:?}"));
    }
    let (pc, packed) = start?;
    let mut types = vec![0; TYPES];
    let closing = Closing { start: pc as u32, packed: packed.map(|word| word_numbers(&word)) };
    let verdict = compare::close(tally, &mut scene, &closing, &mut types);
    let good = match verdict {
        Verdict::Granted { entries, .. } => holds(&types, &published) && entries > 0,
        Verdict::None | Verdict::Over => published.is_empty(),
        Verdict::Refused(_) => false,
    };
    if !good {
        tally.difference(
            "a run",
            format!("{verdict:?} {:?}, published {published:?}, code {code:02x?}", &types[..published.len().max(8)]),
        );
    }
    Some((steps, published.len()))
}

/// The published codes and nothing else stand in our slice, which was all 0.
pub fn holds(types: &[u16], published: &[u16]) -> bool {
    types[..published.len()] == published[..] && types[published.len()..].iter().all(|n| *n == 0)
}
