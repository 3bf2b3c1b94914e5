//! A closing on all sides.

use super::{
    Scene, Tally,
    terms::{paths, state},
};
use crate::{
    core::*,
    plain::Plain,
    proved::{self, Proved},
};
use published::Answer;

pub fn close(tally: &mut Tally, scene: &mut Scene, closing: &Closing, types: &mut [u16]) -> Verdict {
    let before = scene.clone();
    let kept = types.to_vec();
    let verdict = Plain.close(&mut scene.head, &mut scene.table, &scene.code, closing, types);
    tally.closings += 1;
    match verdict {
        Verdict::Refused(number) => tally.closing_numbers[number as usize] += 1,
        Verdict::None => tally.verdicts[0] += 1,
        Verdict::Over => tally.verdicts[1] += 1,
        Verdict::Granted { .. } => tally.verdicts[2] += 1,
    }
    let said = Said { scene, verdict, types };
    if proved::AT_HAND {
        with_proved(tally, &before, &kept, closing, &said);
    }
    if !matches!(verdict, Verdict::Refused(_)) && published::AT_HAND {
        with_published(tally, &before, &kept, closing, &said);
    }
    verdict
}

/// What the plain reading answered, and left.
struct Said<'a> {
    scene: &'a Scene,
    verdict: Verdict,
    types: &'a [u16],
}

fn with_proved(tally: &mut Tally, before: &Scene, kept: &[u16], closing: &Closing, plain: &Said) {
    let (mut other, mut types) = (before.clone(), kept.to_vec());
    let said = Proved.close(&mut other.head, &mut other.table, &other.code, closing, &mut types);
    if said != plain.verdict
        || other.head != plain.scene.head
        || other.table != plain.scene.table
        || types != plain.types
    {
        tally.difference(
            "a closing, plain and proved",
            format!("plain {:?}, proved {said:?}\nbefore {before:?}\n{closing:?}", plain.verdict),
        );
    }
}

fn with_published(tally: &mut Tally, before: &Scene, kept: &[u16], closing: &Closing, plain: &Said) {
    tally.closings_published += 1;
    let Said { scene, verdict, types } = plain;
    let old = paths(&before.table, before.head.used);
    let mut held = state(&before.table, before.head, &old);
    let answer =
        published::close(&before.code, closing.start as usize, closing.packed.map(|word| word_bytes(&word)), &mut held);
    let ours = state(&scene.table, scene.head, &paths(&scene.table, scene.head.used));
    if !is_same(&answer, plain, kept) || held != ours {
        tally.difference(
            "a closing, published",
            format!(
                "code {:02x?} {closing:?}\nbefore {:?}\nours {verdict:?} {ours:?} {:?}\npublished {answer:?} {held:?}",
                before.code,
                state(&before.table, before.head, &old),
                &types[..types.len().min(40)]
            ),
        );
    }
}

/// The same answer and list; beyond the list the slice is as it was.
fn is_same(answer: &Answer, plain: &Said, kept: &[u16]) -> bool {
    let types = plain.types;
    match (answer, plain.verdict) {
        (Answer::None, Verdict::None) | (Answer::Over, Verdict::Over) => types == kept,
        (Answer::Granted(left, count, codes), Verdict::Granted { entries, left: ours, length }) => {
            (*left, *count, 32 * *count) == (ours as usize, entries as usize, length as usize)
                && types[..codes.len()] == codes[..]
                && types[codes.len()..] == kept[codes.len()..]
        }
        _ => false,
    }
}
