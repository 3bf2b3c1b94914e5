//! Text calls.

use crate::{
    compare::{self, Tally},
    generate::Random,
};

/// The text of a list, of a part of it and of a damaged one, in slices of any length.
pub fn texts(r: &mut Random, tally: &mut Tally, codes: &mut [u16], entries: u32) {
    let mut length = length_of(codes, entries);
    if r.one_in(3) {
        length = r.below(length + 4).min(codes.len());
    }
    if r.one_in(3) {
        let at = r.below(length + 1).min(codes.len() - 1);
        codes[at] = r.pick(&[1, 3, 5, 5, 1256, 1250, 3033, 16_385, 16_386, 16_387, 0, 6, 2008, 3001]);
    }
    let room = match r.below(4) {
        0 => r.below(60),
        1 => 7 * length,
        _ => 12 * length,
    };
    compare::text(tally, &codes[..length], &mut vec![0x2a; room]);
}

/// How many codes so many types take.
fn length_of(codes: &[u16], entries: u32) -> usize {
    let (mut length, mut wanted) = (0, entries as usize);
    while wanted > 0 {
        wanted -= 1;
        match codes[length] {
            5 => wanted += 1,
            code @ 16_384.. => wanted += usize::from(code) - 16_384,
            _ => (),
        }
        length += 1;
    }
    length
}
