//! A small assembler, with labels for jumps.

use crate::generate::Random;

#[derive(Default)]
pub struct Asm {
    code: Vec<u8>,
    labels: Vec<Option<usize>>,
    uses: Vec<(usize, usize)>,
}

impl Asm {
    /// Opcodes, or bytes behind one.
    pub fn op(&mut self, ops: &[u8]) -> &mut Self {
        self.code.extend(ops);
        self
    }

    /// The shortest push of a number.
    pub fn push(&mut self, value: u64) -> &mut Self {
        let bytes = value.to_be_bytes();
        let from = bytes.iter().position(|byte| *byte != 0).unwrap_or(8);
        self.bytes(&bytes[from..])
    }

    /// A push of these bytes.
    pub fn bytes(&mut self, bytes: &[u8]) -> &mut Self {
        self.code.push(0x5f + bytes.len() as u8);
        self.op(bytes)
    }

    pub fn label(&mut self) -> usize {
        self.labels.push(None);
        self.labels.len() - 1
    }

    pub fn push_label(&mut self, label: usize) -> &mut Self {
        self.op(&[0x61, 0, 0]);
        self.uses.push((self.code.len() - 2, label));
        self
    }

    pub fn place(&mut self, label: usize) -> &mut Self {
        self.labels[label] = Some(self.code.len());
        self.op(&[0x5b])
    }

    pub fn finish(mut self) -> Vec<u8> {
        for (at, label) in self.uses {
            let place = self.labels[label].expect("placed") as u16;
            self.code[at..at + 2].copy_from_slice(&place.to_be_bytes());
        }
        self.code
    }

    pub fn revert(&mut self, r: &mut Random) -> &mut Self {
        let form: &[u8] =
            r.pick(&[&[0x5f, 0x5f, 0xfd], &[0x5f, 0x80, 0xfd], &[0x60, 0, 0x80, 0xfd], &[0x60, 0, 0x60, 0, 0xfd]]);
        self.op(form)
    }

    /// Goes on if the top is not zero, and reverts otherwise.
    pub fn require(&mut self, r: &mut Random) -> &mut Self {
        let good = self.label();
        self.push_label(good).op(&[0x57]).revert(r).place(good)
    }
}
