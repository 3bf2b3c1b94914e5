//! The numbers of document 01: places in a record, kinds of facts and labels, type names and the confidence of a range
//! name.

// places in a record
pub const KEY: usize = 0;
pub const PARENT: usize = 1;
pub const CHILD: usize = 2;
pub const NEXT: usize = 3;
pub const SEEN: usize = 4;
pub const NOT_BOOL: usize = 5;
pub const BLOCKED: usize = 6;
pub const KIND: usize = 7;
pub const COUNT: usize = 8;
pub const NAME: usize = 9;
pub const CONFIDENCE: usize = 10;

// kinds of a fact; 0 is plain
pub const DYNAMIC: u32 = 1;
pub const ARRAY: u32 = 2;

// kinds of a label; 0 is none
pub const CALL_DATA: u32 = 1;
pub const ARG: u32 = 2;
pub const ZERO_TEST: u32 = 3;

// type names
pub const BOOL: u32 = 1;
pub const ADDRESS: u32 = 2;
pub const BYTES: u32 = 3;
pub const STRING: u32 = 4;

/// The confidence by which a range name is told from others.
pub const RANGE: u32 = 6;

pub fn is_name(code: u32) -> bool {
    matches!(code, 1..=4 | 3001..=3032) || matches!(code, 1008..=1256 | 2008..=2256) && (code % 1000).is_multiple_of(8)
}
