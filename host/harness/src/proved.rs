//! The proved core, by the C functions of its archive.

use crate::core::*;
#[cfg(have_archive)]
use crate::raw;

pub struct Proved;

pub const AT_HAND: bool = cfg!(have_archive);

#[cfg(have_archive)]
impl Text for Proved {
    fn text(&self, codes: &[u16], out: &mut [u8]) -> (u32, usize) {
        raw::text(codes, out)
    }
}

#[cfg(not(have_archive))]
impl Text for Proved {
    fn text(&self, _: &[u16], _: &mut [u8]) -> (u32, usize) {
        panic!("the archive is not at hand")
    }
}

#[cfg(have_archive)]
impl Core for Proved {
    fn fresh(&self, head: &mut Head, table: &mut [u32]) -> u32 {
        raw::fresh(head, table)
    }

    fn step(
        &self,
        head: &mut Head,
        table: &mut [u32],
        code: &[u8],
        stack: &mut [u32],
        memory: &mut [u32],
        step: &[u32],
    ) -> u32 {
        raw::step(head, table, code, stack, memory, step)
    }

    fn close(&self, head: &mut Head, table: &mut [u32], code: &[u8], closing: &Closing, types: &mut [u16]) -> Verdict {
        let flag = u32::from(closing.packed.is_some());
        let said = raw::closing(head, table, code, closing.start, flag, &closing.packed.unwrap_or_default(), types);
        match (said.number, said.kind) {
            (0, 1) => Verdict::None,
            (0, 2) => Verdict::Over,
            (0, 3) => Verdict::Granted { entries: said.entries, left: said.left, length: said.length },
            (1.., 0) => Verdict::Refused(said.number),
            _ => panic!("the archive answered {said:?}"),
        }
    }
}

#[cfg(not(have_archive))]
impl Core for Proved {
    fn fresh(&self, _: &mut Head, _: &mut [u32]) -> u32 {
        panic!("the archive is not at hand")
    }

    fn step(&self, _: &mut Head, _: &mut [u32], _: &[u8], _: &mut [u32], _: &mut [u32], _: &[u32]) -> u32 {
        panic!("the archive is not at hand")
    }

    fn close(&self, _: &mut Head, _: &mut [u32], _: &[u8], _: &Closing, _: &mut [u16]) -> Verdict {
        panic!("the archive is not at hand")
    }
}
