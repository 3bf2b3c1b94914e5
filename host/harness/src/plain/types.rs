//! The types of the facts, as codes: each record's words, and the type that a record is.

use super::{facts::Facts, numbers::*};

impl Facts {
    /// The largest key of a seen child, 0 if there is none.
    fn last_key(&self, r: u32) -> u32 {
        self.seen_children(r).last().map_or(0, |child| self.at(*child)[KEY])
    }

    /// The last word that a record has a type for, by its children or by its count.
    pub fn last_word(&self, r: u32) -> u32 {
        (self.last_key(r) / 32).max(self.at(r)[COUNT])
    }

    /// One type, as codes, for each word of a record; an array's begin at word 1.
    pub fn words(&self, r: u32) -> Vec<Vec<u16>> {
        let first = if self.at(r)[KIND] == ARRAY { 1 } else { 0 };
        let children = self.seen_children(r);
        let one = |word: u32| {
            children
                .iter()
                .find(|child| self.at(**child)[KEY] == 32 * word)
                .map_or(vec![1256], |child| self.type_of(*child))
        };
        (first..=self.last_word(r)).map(one).collect()
    }

    /// The name if it holds, else what the kind and the words make.
    fn type_of(&self, r: u32) -> Vec<u16> {
        let [.., kind, count, name, _] = *self.at(r);
        let children = self.seen_children(r);
        let holds = match name {
            0 => false,
            BYTES => kind == 0 || kind == DYNAMIC && count == 1,
            _ => children.is_empty() && kind != ARRAY,
        };
        if holds {
            return vec![name as u16];
        }
        let words = self.words(r);
        let array_of = |inner: Vec<u16>| [vec![5], inner].concat();
        let end = u64::from(self.last_key(r)).max(32 * u64::from(count));
        match (kind, children[..].first()) {
            (ARRAY, _) => array_of(joined(&words)),
            (DYNAMIC, None) if end == 0 => vec![BYTES as u16],
            (DYNAMIC, None) if end == 32 => array_of(vec![1256]),
            (DYNAMIC, Some(one)) if end == 32 && children.len() == 1 && self.at(*one)[KIND] == 0 => {
                array_of(words[1].clone())
            }
            _ => joined(&words),
        }
    }
}

/// One type as it is; several as a tuple.
fn joined(words: &[Vec<u16>]) -> Vec<u16> {
    match words {
        [one] => one.clone(),
        _ => [vec![16_384 + words.len() as u16], words.concat()].concat(),
    }
}
