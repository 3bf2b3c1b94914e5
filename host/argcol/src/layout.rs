//! The widths of document 01, and its limits.

/// Numbers of a record.
pub const RECORD: usize = 11;
/// Numbers of a label.
pub const LABEL: usize = 13;
/// Numbers of a stack slot: a word and a label.
pub const SLOT: usize = 21;
/// Numbers of a memory entry.
pub const ENTRY: usize = 15;
/// Numbers of a step.
pub const STEP: usize = 59;
/// The most codes that a list has, and the least that a closing's slice has room for.
pub const TYPES: usize = 8192;

/// The most records that a table has.
pub const MOST_RECORDS: usize = 16_384;
/// The most bytes of code that a call takes.
pub const MOST_CODE: usize = 65_536;
/// The most slots that a step takes.
pub const MOST_SLOTS: usize = 1_024;
/// The most entries that a step takes.
pub const MOST_ENTRIES: usize = 1_024;
