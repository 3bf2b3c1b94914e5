//! What a contract does with a word of the call data: its decoder's checks, or some use.

use super::contracts::Writer;
use crate::generate::Random;

impl Writer {
    /// What a decoder does with a loaded word; the word is on the top and goes.
    pub fn word(&mut self, r: &mut Random, kind: usize) {
        match kind {
            0 | 1 | 3 if self.vyper => self.shifted(r, kind),
            0..=4 => self.checked(r, kind),
            _ => self.used(r, kind),
        }
        self.a.op(&[0x50]);
    }

    /// Vyper's checks of an address, a bool and fixed bytes: the bits beyond are shifted to the end.
    fn shifted(&mut self, r: &mut Random, kind: usize) {
        let (shift, op) = match kind {
            0 => (160, 0x1c),
            1 => (1, 0x1c),
            _ => (8 * (1 + r.below(32)) as u64, 0x1b),
        };
        let a = &mut self.a;
        a.op(&[0x80]).push(shift).op(&[op]);
        if r.one_in(4) {
            let good = a.label();
            a.op(&[0x15]).push_label(good).op(&[0x57]).revert(r).place(good);
        } else {
            a.push_label(self.fail).op(&[0x57]);
        }
    }

    /// Solidity's checks, and those that both have.
    fn checked(&mut self, r: &mut Random, kind: usize) {
        let a = &mut self.a;
        match kind {
            0 => drop(a.op(&[0x80]).bytes(&[0xff; 20]).op(&[0x16, 0x81, 0x14])),
            1 => drop(a.op(&[0x80, 0x15, 0x15, 0x81, 0x14])),
            2 => drop(a.op(&[0x80]).push(r.below(32) as u64).op(&[0x0b, 0x81, 0x14])),
            3 => {
                let mut mask = [0; 32];
                mask[..1 + r.below(32)].fill(0xff);
                a.op(&[0x80]).bytes(&mask).op(&[0x16, 0x81, 0x14]);
            }
            _ => {
                // an enum: value < members, the value on the top or below
                let members = r.pick(&[1, 2, 3, 255, 256, 257]);
                if r.one_in(2) {
                    a.push(members).op(&[0x81, 0x10]);
                } else {
                    a.op(&[0x80]).push(members).op(&[0x11]);
                }
            }
        }
        a.require(r);
    }

    /// What a function does with a word that no decoder checked.
    fn used(&mut self, r: &mut Random, kind: usize) {
        let a = &mut self.a;
        match kind {
            5 => drop(a.op(&[0x80]).bytes(&vec![0xff; 1 + r.below(32)]).op(&[0x16, 0x50])),
            6 => drop(a.op(&[0x80, 0x5f, 0x1a, 0x50])),
            7 => {
                let op = r.pick(&[0x05, 0x07, 0x02, 0x04, 0x03, 0x01, 0x10, 0x11]);
                a.op(&[0x80]).push(7).op(&[op, 0x50]);
            }
            8 => drop(a.op(&[0x80]).push(1).op(&[0x90, 0x55])),
            9 => self.through_memory(r),
            10 => drop(a.op(&[0x80, 0x5f, 0x5f, 0x5f, 0x5f, 0x84, 0x5a, 0xfa, 0x50])),
            11 => drop(a.op(&[0x80, 0x5f, 0x53])),
            12 => {
                // two arguments compared
                let op = r.pick(&[0x14, 0x03, 0x06, 0x0a]);
                a.push(4).op(&[0x35, 0x81, op, 0x50]);
            }
            13 if !self.vyper => {
                // a divisor of old compilers
                let good = a.label();
                a.push(7).op(&[0x81, 0x15, 0x15]).push_label(good).op(&[0x57]);
                a.op(&[0xfe]).place(good).op(&[0x04, 0x50, 0x5f]);
            }
            _ => (),
        }
    }

    /// The word is stored, loaded again and looked at then.
    fn through_memory(&mut self, r: &mut Random) {
        let at = 32 * (4 + r.below(8)) as u64;
        self.a.op(&[0x80]).push(at).op(&[0x52]).push(at).op(&[0x51]);
        let again = r.below(9);
        self.word(r, again);
    }
}
