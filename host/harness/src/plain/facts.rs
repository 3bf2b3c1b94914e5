//! The facts as records, numbered from 1, and the operations on them.

use super::numbers::*;
use crate::core::RECORD;

pub struct Facts(pub Vec<[u32; RECORD]>);

impl Facts {
    pub fn read(table: &[u32], used: u32) -> Self {
        Self(table.chunks(RECORD).take(used as usize).map(|record| record.try_into().unwrap()).collect())
    }

    pub fn write(&self, table: &mut [u32]) {
        for (to, from) in table.chunks_mut(RECORD).zip(&self.0) {
            to.copy_from_slice(from);
        }
    }

    pub fn at(&self, r: u32) -> &[u32; RECORD] {
        &self.0[r as usize - 1]
    }

    pub fn at_mut(&mut self, r: u32) -> &mut [u32; RECORD] {
        &mut self.0[r as usize - 1]
    }

    /// The child with this key, seen or not.
    pub fn find(&self, r: u32, key: u32) -> Option<u32> {
        let mut next = self.at(r)[CHILD];
        while next != 0 && self.at(next)[KEY] != key {
            next = self.at(next)[NEXT];
        }
        (next != 0).then_some(next)
    }

    /// The child with this key, made with the next free number if there is none.
    pub fn ensure(&mut self, r: u32, key: u32) -> u32 {
        if let Some(found) = self.find(r, key) {
            return found;
        }
        let new = self.0.len() as u32 + 1;
        let (mut before, mut next) = (None, self.at(r)[CHILD]);
        while next != 0 && self.at(next)[KEY] < key {
            before = Some(next);
            next = self.at(next)[NEXT];
        }
        match before {
            None => self.at_mut(r)[CHILD] = new,
            Some(b) => self.at_mut(b)[NEXT] = new,
        }
        let mut record = [0; RECORD];
        (record[KEY], record[PARENT], record[NEXT]) = (key, r, next);
        self.0.push(record);
        new
    }

    /// The child with this key, made seen together with all records above it.
    pub fn get_or_create(&mut self, r: u32, key: u32) -> u32 {
        let found = self.ensure(r, key);
        let mut up = found;
        while up != 0 {
            self.at_mut(up)[SEEN] = 1;
            up = self.at(up)[PARENT];
        }
        found
    }

    pub fn clear_name(&mut self, r: u32) {
        self.at_mut(r)[NAME] = 0;
        self.at_mut(r)[CONFIDENCE] = 0;
    }

    /// A bool or range name is lost by the mark; the record is made if there is none, but not made seen.
    pub fn mark_not_bool(&mut self, r: u32, key: u32) {
        let found = self.ensure(r, key);
        if self.at(found)[NAME] == BOOL || self.at(found)[CONFIDENCE] == RANGE {
            self.clear_name(found);
        }
        self.at_mut(found)[NOT_BOOL] = 1;
    }

    /// A bool or range name stops at a not-bool mark before any record is made seen; a blocked range name stops after
    /// that. An equal or lower confidence never replaces.
    pub fn set_name(&mut self, r: u32, key: u32, name: u32, confidence: u32) {
        let marked = self.find(r, key).is_some_and(|found| self.at(found)[NOT_BOOL] == 1);
        if marked && (name == BOOL || confidence == RANGE) {
            return;
        }
        let found = self.get_or_create(r, key);
        let record = self.at_mut(found);
        if confidence == RANGE && record[BLOCKED] == 1 || confidence <= record[CONFIDENCE] {
            return;
        }
        (record[NAME], record[CONFIDENCE]) = (name, confidence);
    }

    /// Takes a range name away, and with `block` keeps a later one from going in; what is not seen is left alone.
    pub fn clear_hint(&mut self, r: u32, key: u32, block: bool) {
        let Some(found) = self.find(r, key).filter(|found| self.at(*found)[SEEN] == 1) else {
            return;
        };
        if block {
            self.at_mut(found)[BLOCKED] = 1;
        }
        if self.at(found)[CONFIDENCE] == RANGE {
            self.clear_name(found);
        }
    }

    /// How many arrays there are from a record up to the root.
    pub fn arrays(&self, mut r: u32) -> u32 {
        let mut count = 0;
        while r != 1 {
            count += u32::from(self.at(r)[KIND] == ARRAY);
            r = self.at(r)[PARENT];
        }
        count
    }

    pub fn depth(&self, mut r: u32) -> u32 {
        let mut depth = 0;
        while r != 1 {
            depth += 1;
            r = self.at(r)[PARENT];
        }
        depth
    }

    pub fn seen_children(&self, r: u32) -> Vec<u32> {
        let (mut out, mut next) = (Vec::new(), self.at(r)[CHILD]);
        while next != 0 {
            if self.at(next)[SEEN] == 1 {
                out.push(next);
            }
            next = self.at(next)[NEXT];
        }
        out
    }
}
