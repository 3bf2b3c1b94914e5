//! From a trace to the text form.

use super::{Trace, TraceStep};
use crate::{ENTRY, LABEL, Label, SLOT, Word, op};
use alloc::{
    format,
    string::{String, ToString},
};

impl Trace {
    /// The text form. What is 0 or none is left out.
    ///
    /// ```
    /// use argcol::trace::Trace;
    ///
    /// let trace = Trace::from_text("step 0x02   # MUL\n start 0x0c")?;
    /// assert_eq!(trace.to_text(), "start 12\nstep MUL\n");
    /// # Ok::<(), argcol::trace::BadTrace>(())
    /// ```
    pub fn to_text(&self) -> String {
        let mut out = String::new();
        for bytes in self.code.chunks(32) {
            out += "code 0x";
            bytes.iter().for_each(|byte| out += &format!("{byte:02x}"));
            out.push('\n');
        }
        if self.start != 0 {
            out += &format!("start {}\n", self.start);
        }
        if self.packed || self.word != Word::ZERO {
            out += &format!("{} {}\n", if self.packed { "packed" } else { "unpacked" }, word_text(self.word));
        }
        self.steps.iter().for_each(|step| step.put_text(&mut out));
        out
    }
}

impl TraceStep {
    fn put_text(&self, out: &mut String) {
        let n = &self.numbers;
        *out += &format!("step {}", opcode_text(n[0]));
        if n[1] != 0 {
            *out += &format!(" pc {}", n[1]);
        }
        out.push('\n');
        for (name, slot) in [("first", &n[2..23]), ("second", &n[23..44])] {
            if slot.iter().any(|number| *number != 0) {
                *out += &format!("  {name} {}\n", slot_text(slot.try_into().unwrap()));
            }
        }
        if n[44] != 0 {
            *out += &format!("  pick {}\n", n[44]);
        }
        let label = label_text(n.last_chunk().unwrap());
        match n[45] {
            0 if label.is_empty() => (),
            1 => *out += &format!("  load{label}\n"),
            flag => *out += &format!("  load-flag {flag}{label}\n"),
        }
        self.slots.iter().for_each(|slot| *out += &format!("  slot {}\n", slot_text(slot)));
        self.entries.iter().for_each(|entry| *out += &format!("  entry {}\n", entry_text(entry)));
    }
}

/// The name, or the number in hex if no opcode has it.
fn opcode_text(number: u32) -> String {
    let name = u8::try_from(number).ok().and_then(op::name);
    name.map_or_else(|| format!("0x{number:x}"), Into::into)
}

/// In decimal below 2^32, else in hex.
fn word_text(word: Word) -> String {
    if u32::try_from(word).is_ok() { word.to_string() } else { format!("{word:#x}") }
}

fn slot_text(slot: &[u32; SLOT]) -> String {
    word_text(Word(*slot.first_chunk().unwrap())) + &label_text(slot.last_chunk().unwrap())
}

fn entry_text(entry: &[u32; ENTRY]) -> String {
    let replaced = if entry[1] == 0 { String::new() } else { format!(" replaced {}", entry[1]) };
    format!("{}{replaced}{}", entry[0], label_text(entry.last_chunk().unwrap()))
}

/// With a blank before it, if it isn't empty.
fn label_text(numbers: &[u32; LABEL]) -> String {
    match Label::try_from(numbers) {
        Ok(Label::None) => String::new(),
        Ok(label) => format!(" {label}"),
        Err(_) => numbers.iter().fold(" numbers".into(), |out, number| format!("{out} {number}")),
    }
}
