use crate::{layout::RECORD, types::Type};
use alloc::vec::Vec;

/// What is known of an argument or of a part of one: a seen record.
#[derive(Clone, Debug, PartialEq, Eq, Hash)]
#[non_exhaustive]
pub struct Fact {
    /// The record's number, which the path of a label names.
    pub record: u32,
    /// The keys from the root down: a place in bytes, and in what that leads to, and so on. Empty for the root.
    pub path: Vec<u32>,
    /// Whether it leads to something, and to what.
    pub kind: Kind,
    /// In words: an array's element, or the last word that was met of what a dynamic fact leads to; else 0.
    pub count: u32,
    /// The type that a rule gave it, if one did; none has a type inside.
    pub name: Option<Type>,
    /// How sure the rule is, 1 to 20; 0 without a name.
    pub confidence: u32,
}

/// What a fact leads to.
#[derive(Clone, Copy, Debug, Default, PartialEq, Eq, Hash)]
#[non_exhaustive]
pub enum Kind {
    /// Nothing, or nothing that is known.
    #[default]
    None,
    /// Something of any length.
    Dynamic,
    /// The elements of an array.
    Array,
}

impl Fact {
    /// From a sound table.
    fn new(table: &[u32], record: u32) -> Self {
        let [.., kind, count, name, confidence] = *fields(table, record);
        Self {
            record,
            path: path(table, record),
            kind: match kind {
                1 => Kind::Dynamic,
                2 => Kind::Array,
                _ => Kind::None,
            },
            count,
            name: u16::try_from(name).ok().and_then(|code| Type::from_codes(&[code]).ok()?.pop()),
            confidence,
        }
    }
}

/// The numbers of a record; what is past the end has zeros.
fn fields(table: &[u32], record: u32) -> &[u32; RECORD] {
    let (records, _) = table.as_chunks();
    records.get((record as usize).wrapping_sub(1)).unwrap_or(&[0; RECORD])
}

fn path(table: &[u32], mut record: u32) -> Vec<u32> {
    let mut keys = Vec::new();
    // a parent has a lower number
    while let [key, parent, ..] = *fields(table, record)
        && (1..record).contains(&parent)
    {
        keys.push(key);
        record = parent;
    }
    keys.reverse();
    keys
}

/// The facts of a session, the root first, in the order of the records.
#[derive(Clone, Debug)]
pub struct Facts<'a> {
    table: &'a [u32],
    next: u32,
    used: u32,
}

impl<'a> Facts<'a> {
    pub(crate) fn new(table: &'a [u32], used: u32) -> Self {
        Self { table, next: 1, used }
    }
}

impl Iterator for Facts<'_> {
    type Item = Fact;

    fn next(&mut self) -> Option<Fact> {
        while self.next <= self.used {
            let record = self.next;
            self.next += 1;
            if fields(self.table, record)[4] == 1 {
                return Some(Fact::new(self.table, record));
            }
        }
        None
    }

    fn size_hint(&self) -> (usize, Option<usize>) {
        (0, Some((self.used + 1).saturating_sub(self.next) as usize))
    }
}

impl core::iter::FusedIterator for Facts<'_> {}
