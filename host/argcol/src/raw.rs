//! The C functions of the archive, on numbers and slices, for this library and for the comparison.
//!
//! In C a slice is a pointer and a length; no function asks anything of its numbers, and none keeps a pointer. Each
//! call returns document 01's number of the refusal, 0 for a call that is taken. They have no state of their own, so
//! that calls on different tables may run side by side in threads.
//!
//! A step and a closing call themselves once for each level of the facts, with 64 bytes of the calling thread's stack
//! for each, as measured, beside some 16,000: the deepest table (16,384 records in one chain) takes 1.06 MB. The text
//! call takes some 21,000 bytes, whatever its list.

/// The version of the functions that this file declares, as `ARGCOL_VERSION` of `crates/argcol/argcol.h`.
pub const VERSION: u32 = 1;

// as crates/argcol/argcol.h has them
mod archive {
    unsafe extern "C" {
        pub safe fn argcol_version() -> u32;
        pub fn argcol_fresh(used: &mut u32, active: &mut u32, table: *mut u32, table_len: usize) -> u32;
        pub fn argcol_step(
            used: &mut u32,
            active: &mut u32,
            table: *mut u32,
            table_len: usize,
            code: *const u8,
            code_len: usize,
            stack: *mut u32,
            stack_len: usize,
            memory: *mut u32,
            memory_len: usize,
            numbers: *const u32,
            numbers_len: usize,
        ) -> u32;
        pub fn argcol_closing(
            used: &mut u32,
            active: &mut u32,
            table: *mut u32,
            table_len: usize,
            code: *const u8,
            code_len: usize,
            start: u32,
            flag: u32,
            word: &[u32; 8],
            types: *mut u16,
            types_len: usize,
            kind: &mut u32,
            entries: &mut u32,
            left: &mut u32,
            length: &mut u32,
        ) -> u32;
        pub fn argcol_text(
            codes: *const u16,
            codes_len: usize,
            out: *mut u8,
            out_len: usize,
            length: &mut usize,
        ) -> u32;
    }
}

/// The head that goes along with every call: records used, decoder active.
#[derive(Clone, Copy, Debug, Default, PartialEq, Eq, Hash)]
#[non_exhaustive]
pub struct Head {
    /// Records used, the root included.
    pub used: u32,
    /// 1 while the decoder phase lasts, 0 after it.
    pub active: u32,
}

impl Head {
    /// A head of these two numbers, any at all.
    ///
    /// ```
    /// let head = argcol::Head::new(1, 1);
    /// assert_eq!((head.used, head.active), (1, 1));
    /// ```
    pub const fn new(used: u32, active: u32) -> Self {
        Self { used, active }
    }
}

/// A closing's answer. All but the number are 0 for a refusal; entries, left and length are 0 unless it is granted.
#[derive(Clone, Copy, Debug, Default, PartialEq, Eq)]
#[non_exhaustive]
pub struct Answered {
    /// The refusal's number, 0 for a call that is taken.
    pub number: u32,
    /// 0 for a refusal, 1 for none, 2 for over, 3 for granted.
    pub kind: u32,
    /// Types of the list, one for each argument word.
    pub entries: u32,
    /// What is left of the budget of 8,192.
    pub left: u32,
    /// The head's length, 32 bytes for each entry.
    pub length: u32,
}

/// The version of the archive that is linked; another one than [`VERSION`] has other functions than those below.
///
/// ```
/// assert_eq!(argcol::raw::version(), argcol::raw::VERSION);
/// ```
pub fn version() -> u32 {
    archive::argcol_version()
}

/// The fresh call: a lone root, the other records zero, the decoder active. The head's numbers at entry may be
/// anything.
///
/// ```
/// use argcol::{Head, RECORD, raw};
///
/// let (mut head, mut table) = (Head::default(), [7; 2 * RECORD]);
/// assert_eq!(raw::fresh(&mut head, &mut table), 0);
/// assert_eq!((head.used, head.active, table[4]), (1, 1, 1));
/// ```
pub fn fresh(head: &mut Head, table: &mut [u32]) -> u32 {
    // SAFETY: the pointer and the length are those of a slice that is lent for the whole call.
    unsafe { archive::argcol_fresh(&mut head.used, &mut head.active, table.as_mut_ptr(), table.len()) }
}

/// A step: slots, entries and the step itself in document 01's numbers.
///
/// ```
/// use argcol::{Head, RECORD, SLOT, STEP, op, raw};
///
/// let (mut head, mut table) = (Head::default(), [0; 2 * RECORD]);
/// raw::fresh(&mut head, &mut table);
/// // an unlabelled load of argument word 0 puts a label on the top of the stack
/// let (mut stack, mut step) = ([0; SLOT], [0; STEP]);
/// (step[0], step[9]) = (op::CALLDATALOAD.into(), 4);
/// assert_eq!(raw::step(&mut head, &mut table, &[], &mut stack, &mut [], &step), 0);
/// assert_eq!((head.used, stack[8]), (2, 2));
/// ```
pub fn step(
    head: &mut Head,
    table: &mut [u32],
    code: &[u8],
    stack: &mut [u32],
    memory: &mut [u32],
    numbers: &[u32],
) -> u32 {
    // SAFETY: pointers and lengths are those of slices that are lent for the whole call; `&mut` keeps them apart.
    unsafe {
        archive::argcol_step(
            &mut head.used,
            &mut head.active,
            table.as_mut_ptr(),
            table.len(),
            code.as_ptr(),
            code.len(),
            stack.as_mut_ptr(),
            stack.len(),
            memory.as_mut_ptr(),
            memory.len(),
            numbers.as_ptr(),
            numbers.len(),
        )
    }
}

/// The closing. Start is the pc at which the function's own code begins to run. At flag 0 there is no packed word, and
/// its numbers may be anything.
///
/// ```
/// use argcol::{Head, RECORD, TYPES, raw};
///
/// let (mut head, mut table) = (Head::default(), [0; RECORD]);
/// raw::fresh(&mut head, &mut table);
/// let said = raw::closing(&mut head, &mut table, &[], 0, 0, &[0; 8], &mut [0; TYPES]);
/// assert_eq!((said.number, said.kind), (0, 1));
/// ```
pub fn closing(
    head: &mut Head,
    table: &mut [u32],
    code: &[u8],
    start: u32,
    flag: u32,
    word: &[u32; 8],
    types: &mut [u16],
) -> Answered {
    let mut said = Answered::default();
    // SAFETY: as for a step; the four numbers of the answer are apart from each other.
    let number = unsafe {
        archive::argcol_closing(
            &mut head.used,
            &mut head.active,
            table.as_mut_ptr(),
            table.len(),
            code.as_ptr(),
            code.len(),
            start,
            flag,
            word,
            types.as_mut_ptr(),
            types.len(),
            &mut said.kind,
            &mut said.entries,
            &mut said.left,
            &mut said.length,
        )
    };
    // a refused call leaves the four as they were
    Answered { number, ..said }
}

/// The text call: the number, and the length of the text in bytes (0 if it is refused).
///
/// ```
/// let mut out = [0; 8];
/// assert_eq!(argcol::raw::text(&[5, 1], &mut out), (0, 6));
/// assert_eq!(&out, b"bool[]\0\0");
/// ```
pub fn text(codes: &[u16], out: &mut [u8]) -> (u32, usize) {
    let mut length = 0;
    // SAFETY: as for a step.
    let number = unsafe { archive::argcol_text(codes.as_ptr(), codes.len(), out.as_mut_ptr(), out.len(), &mut length) };
    (number, length)
}
