//! Whole runs of the published machine on small contracts, written in the manner of Solidity's and Vyper's decoders:
//! each step that the machine hands to `analyze` goes to our sides too, on one table that they carry along; at the end
//! our list is held against that of `function_arguments`.

mod asm;
mod contracts;
mod runs;
mod sample;
mod speed;
mod watched;
mod words;

pub use contracts::contract;
pub use runs::run;
pub use sample::write_sample;
pub use speed::speed;

const SELECTOR: [u8; 4] = [0xa1, 0xb2, 0xc3, 0xd4];
const RECORDS: usize = 1480;
