//! The closing: its questions, the words of the head that are filled in, the budget and the list.

use super::{code::least_size, facts::Facts, numbers::*, questions::first_three};
use crate::core::*;

const MOST_WORDS: u32 = 4096;
/// Words of all seen records together, and levels of a seen record, that a list may have.
const BUDGET: u32 = 8192;
const DEEPEST: u32 = 64;

pub fn close(head: &mut Head, table: &mut [u32], code: &[u8], closing: &Closing, types: &mut [u16]) -> Verdict {
    let refused = questions(*head, table, code, types);
    if refused != 0 {
        return Verdict::Refused(refused);
    }
    let mut facts = Facts::read(table, head.used);
    for word in 0..facts.head_words(code, closing) {
        facts.get_or_create(1, 32 * word);
    }
    if facts.0.len() > table.len() / RECORD {
        return Verdict::Refused(8);
    }
    head.used = facts.0.len() as u32;
    facts.write(table);
    list(&facts, types)
}

/// The questions that come before the words are filled in: the number of the first that is answered no, 0 if there is
/// none.
fn questions(head: Head, table: &[u32], code: &[u8], types: &[u16]) -> u32 {
    let refused = first_three(head, table, code);
    if refused != 0 {
        return refused;
    }
    if types.len() < TYPES {
        return 9;
    }
    0
}

/// The list of the types goes to the front of the slice, if there is one and it fits the budget.
fn list(facts: &Facts, types: &mut [u16]) -> Verdict {
    if facts.seen_children(1).is_empty() {
        return Verdict::None;
    }
    let seen: Vec<u32> = (1..=facts.0.len() as u32).filter(|r| facts.at(*r)[SEEN] == 1).collect();
    let sum: u64 = seen.iter().map(|r| u64::from(facts.last_word(*r)) + 1).sum();
    if sum > u64::from(BUDGET) || seen.iter().any(|r| facts.depth(*r) > DEEPEST) {
        return Verdict::Over;
    }
    let entries = facts.words(1);
    let codes = entries.concat();
    types[..codes.len()].copy_from_slice(&codes);
    Verdict::Granted { entries: entries.len() as u32, left: BUDGET - sum as u32, length: 32 * entries.len() as u32 }
}

impl Facts {
    /// Is there a kind at a record, or at a seen one below it?
    fn has_dynamic(&self, r: u32) -> bool {
        self.at(r)[KIND] != 0 || self.seen_children(r).into_iter().any(|child| self.has_dynamic(child))
    }

    /// How many words of the head are filled in.
    fn head_words(&self, code: &[u8], closing: &Closing) -> u32 {
        let Some(size) = least_size(code, closing).filter(|size| *size >= 4 && (size - 4) % 32 == 0) else {
            return 0;
        };
        let words = (size - 4) as u32 / 32;
        let dynamic: Vec<u32> = self.seen_children(1).into_iter().filter(|child| self.has_dynamic(*child)).collect();
        let words = match dynamic[..] {
            [] => words,
            [one] if self.at(one)[KIND] == ARRAY && self.seen_children(one).is_empty() => words.saturating_sub(1),
            _ => 0,
        };
        if words <= MOST_WORDS { words } else { 0 }
    }
}
