//! Generated contracts: a dispatcher with one function, which takes its arguments in as Solidity's or Vyper's decoders
//! do.

use super::{SELECTOR, asm::Asm};
use crate::generate::Random;

#[derive(Clone, Debug)]
enum Kind {
    /// The number says what is done with the word.
    Word(usize),
    Bytes,
    Array(Box<Kind>),
    Tuple(Vec<Kind>),
}

fn kind(r: &mut Random, depth: usize) -> Kind {
    match r.below(if depth == 0 { 8 } else { 12 }) {
        0..=7 => Kind::Word(r.below(15)),
        8 | 9 => Kind::Bytes,
        10 => Kind::Array(Box::new(kind(r, depth - 1))),
        _ => Kind::Tuple((0..1 + r.below(3)).map(|_| kind(r, depth - 1)).collect()),
    }
}

pub struct Writer {
    pub a: Asm,
    pub vyper: bool,
    /// Where a failed check goes.
    pub fail: usize,
}

pub fn contract(r: &mut Random) -> Vec<u8> {
    let mut a = Asm::default();
    let vyper = r.one_in(2);
    let kinds: Vec<Kind> = (0..r.below(6)).map(|_| kind(r, 3)).collect();
    let fail = a.label();
    let mut writer = Writer { a, vyper, fail };
    let dense = vyper && r.one_in(2);
    let least = 4 + 32 * (kinds.len() + r.below(3)) as u64;
    if dense {
        writer.dense_dispatcher(r, least);
    } else {
        writer.dispatcher(r, least);
    }
    writer.arguments(r, &kinds);
    let mut a = writer.a;
    if r.one_in(3) {
        a.op(&[0x36]).push(4).op(&[0x90, 0x03]).push(32).op(&[0x90, 0x10]).push_label(fail).op(&[0x57]);
    }
    a.op(&[0x00]).place(fail).revert(r);
    a.finish()
}

impl Writer {
    /// Vyper's dense table, whose packed word holds the least length of the call data.
    fn dense_dispatcher(&mut self, r: &mut Random, least: u64) {
        let (a, fail) = (&mut self.a, self.fail);
        a.push(least | 0x1234_0000 | r.below(2) as u64).op(&[0x5f, 0x35]).push(0xe0).op(&[0x1c]);
        a.bytes(&SELECTOR).op(&[0x18]).push_label(fail).op(&[0x57]);
        a.op(&[0x80]).bytes(&[0xff, 0xfe]).op(&[0x16, 0x36, 0x10, 0x34, 0x17]).push_label(fail).op(&[0x57]);
    }

    fn dispatcher(&mut self, r: &mut Random, least: u64) {
        let (a, fail) = (&mut self.a, self.fail);
        let body = a.label();
        a.push(128).push(64).op(&[0x52, 0x34, 0x80, 0x15]).require(r).op(&[0x50]);
        a.op(&[0x5f, 0x35]).push(0xe0).op(&[0x1c, 0x80]).bytes(&SELECTOR).op(&[0x14]);
        a.push_label(body).op(&[0x57]).push_label(fail).op(&[0x56]).place(body);
        if self.vyper {
            a.push(least).op(&[0x36, 0x10, 0x34, 0x17]).push_label(fail).op(&[0x57]);
        }
    }

    /// Each argument is taken in, but for some that the function does not look at.
    fn arguments(&mut self, r: &mut Random, kinds: &[Kind]) {
        for (i, kind) in kinds.iter().enumerate() {
            if r.one_in(6) {
                continue;
            }
            self.a.push(4 + 32 * i as u64).op(&[0x35]);
            match kind {
                Kind::Word(n) => self.word(r, *n),
                _ => {
                    self.a.push(4).op(&[0x01]);
                    self.container(r, kind);
                }
            }
        }
    }

    /// A container whose place is on the top; it goes.
    fn container(&mut self, r: &mut Random, kind: &Kind) {
        match kind {
            Kind::Bytes => self.bytes(r),
            Kind::Array(inner) => self.array(r, inner),
            Kind::Tuple(parts) => self.tuple(r, parts),
            Kind::Word(n) => {
                self.a.op(&[0x35]);
                self.word(r, *n);
            }
        }
    }

    fn bytes(&mut self, r: &mut Random) {
        let a = &mut self.a;
        let to = 128 + 64 * r.below(4) as u64;
        a.op(&[0x80, 0x35]);
        if r.one_in(3) {
            a.op(&[0x80]).push(1).op(&[0x02, 0x50]);
        }
        if r.one_in(3) {
            // a length that goes to storage, as a string's
            a.op(&[0x80]).push(2).op(&[0x02, 0x50]);
        }
        if r.one_in(2) {
            a.op(&[0x80]).push(31).op(&[0x10, 0x50]);
        }
        a.op(&[0x81]).push(32).op(&[0x01]).push(to).op(&[0x37]).push(to).op(&[0x51, 0x50, 0x50]);
    }

    fn array(&mut self, r: &mut Random, inner: &Kind) {
        let a = &mut self.a;
        a.op(&[0x80, 0x35]);
        match r.below(3) {
            0 => drop(a.op(&[0x80]).push(5).op(&[0x1b, 0x50])),
            1 => drop(a.op(&[0x80]).push(32).op(&[0x02, 0x50])),
            _ => {
                let size = 32 * (1 + r.below(4)) as u64;
                a.push(size).op(&[0x81, 0x02, 0x50]);
            }
        }
        let end = a.label();
        if r.one_in(2) {
            a.op(&[0x80, 0x5f, 0x10, 0x15]).push_label(end).op(&[0x57]);
        }
        // length and place are below; the place of the first element
        a.op(&[0x81]).push(32).op(&[0x01]);
        if !matches!(inner, Kind::Word(_)) {
            a.op(&[0x80, 0x35, 0x01]);
        }
        self.container(r, inner);
        self.a.place(end).op(&[0x50, 0x50]);
    }

    fn tuple(&mut self, r: &mut Random, parts: &[Kind]) {
        for (i, part) in parts.iter().enumerate() {
            self.a.op(&[0x80]).push(32 * i as u64).op(&[0x01, 0x35]);
            match part {
                Kind::Word(n) => self.word(r, *n),
                _ => {
                    self.a.op(&[0x81, 0x01]);
                    self.container(r, part);
                }
            }
        }
        self.a.op(&[0x50]);
    }
}
