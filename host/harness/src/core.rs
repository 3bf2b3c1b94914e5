//! The calls of document 01 on tables of numbers, as a host makes them. The plain reading and the proved core both
//! answer them.

pub const RECORD: usize = 11;
pub const LABEL: usize = 13;
pub const SLOT: usize = 21;
pub const ENTRY: usize = 15;
pub const STEP: usize = 59;
pub const TYPES: usize = 8192;

pub use crate::raw::Head;

#[derive(Clone, Copy, Debug, PartialEq, Eq)]
pub enum Verdict {
    Refused(u32),
    None,
    Over,
    Granted { entries: u32, left: u32, length: u32 },
}

#[derive(Clone, Debug)]
pub struct Closing {
    pub start: u32,
    pub packed: Option<[u32; 8]>,
}

pub trait Core {
    /// The refusal's number, 0 if the call is taken.
    fn fresh(&self, head: &mut Head, table: &mut [u32]) -> u32;
    fn step(
        &self,
        head: &mut Head,
        table: &mut [u32],
        code: &[u8],
        stack: &mut [u32],
        memory: &mut [u32],
        step: &[u32],
    ) -> u32;
    fn close(&self, head: &mut Head, table: &mut [u32], code: &[u8], closing: &Closing, types: &mut [u16]) -> Verdict;
}

pub fn word_bytes(numbers: &[u32]) -> [u8; 32] {
    std::array::from_fn(|i| numbers[i / 4].to_be_bytes()[i % 4])
}

pub fn word_numbers(bytes: &[u8; 32]) -> [u32; 8] {
    std::array::from_fn(|i| u32::from_be_bytes(bytes[4 * i..4 * i + 4].try_into().unwrap()))
}

/// The text call's number, and the length of the text.
pub trait Text {
    fn text(&self, codes: &[u16], out: &mut [u8]) -> (u32, usize);
}
