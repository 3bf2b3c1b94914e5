//! From the text form to a trace.

use super::{BadTrace, CODE_LIMIT, NUMBERS_LIMIT, Trace, TraceStep, bad, words::Words};
use crate::{ENTRY, SLOT, STEP, op};
use alloc::{format, vec::Vec};

impl Trace {
    /// Reads the text form.
    ///
    /// # Errors
    ///
    /// A line is none of the form's, the trace is larger than the printer takes or than [`NUMBERS_LIMIT`], or there is
    /// a control character other than a tab and the end of a line, so that no bytes of the printer pass for text.
    ///
    /// ```
    /// use argcol::trace::Trace;
    ///
    /// assert_eq!(Trace::from_text("step MUL pc 7")?.steps[0].numbers[..2], [2, 7]);
    /// assert_eq!(Trace::from_text("\nstop").unwrap_err().line, Some(2));
    /// # Ok::<(), argcol::trace::BadTrace>(())
    /// ```
    pub fn from_text(text: &str) -> Result<Self, BadTrace> {
        if let Some(i) = text.lines().position(|line| line.contains(is_no_text)) {
            let reason = "there is a control character; the printer's bytes are read by `trace_text text`".into();
            return Err(BadTrace { line: Some(i + 1), reason });
        }
        let mut reader = Reader::default();
        for (i, line) in text.lines().enumerate() {
            let mut words = Words::of(line);
            if !words.is_empty() {
                reader
                    .line(&mut words)
                    .and_then(|()| words.end())
                    .map_err(|bad| BadTrace { line: Some(i + 1), ..bad })?;
            }
        }
        Ok(reader.trace)
    }
}

/// The printer's bytes always have such a character: their first number, at most 24,576, has a byte 0.
fn is_no_text(character: char) -> bool {
    character.is_control() && !['\t', '\r', '\n'].contains(&character)
}

/// The lines that stand in a step.
const IN_STEP: [&str; 7] = ["first", "second", "pick", "load", "load-flag", "slot", "entry"];

/// The trace so far, the numbers of its steps, and the lines met that stand once: in the trace, and in its last step.
#[derive(Default)]
struct Reader {
    trace: Trace,
    numbers: usize,
    met: Vec<&'static str>,
    met_in_step: Vec<&'static str>,
}

impl Reader {
    fn line(&mut self, words: &mut Words) -> Result<(), BadTrace> {
        let name = words.next()?;
        match name {
            "code" => self.code(words.next()?)?,
            "start" => {
                once(&mut self.met, "start")?;
                self.trace.start = words.number()?;
            }
            "packed" | "unpacked" => {
                once(&mut self.met, "packed or unpacked")?;
                (self.trace.packed, self.trace.word) = (name == "packed", words.word()?);
            }
            "step" => {
                self.trace.steps.push(step(words)?);
                self.met_in_step.clear();
                self.count(STEP)?;
            }
            _ if IN_STEP.contains(&name) => {
                let Some(step) = self.trace.steps.last_mut() else { return bad("no step stands before this line") };
                step.put_line(name, words, &mut self.met_in_step)?;
                match name {
                    "slot" => self.count(SLOT)?,
                    "entry" => self.count(ENTRY)?,
                    _ => (),
                }
            }
            _ => {
                return bad(&format!(
                    "`{name}` begins no line; code, start, packed, unpacked, step, {} do",
                    IN_STEP.join(", ")
                ));
            }
        }
        Ok(())
    }

    fn count(&mut self, numbers: usize) -> Result<(), BadTrace> {
        self.numbers += numbers;
        if self.numbers > NUMBERS_LIMIT { bad("the trace has more than 16,777,216 numbers") } else { Ok(()) }
    }

    fn code(&mut self, text: &str) -> Result<(), BadTrace> {
        let Some(bytes) = bytes(text) else { return bad("code is whole bytes in hex behind 0x") };
        self.trace.code.extend(bytes);
        if self.trace.code.len() > CODE_LIMIT { bad("the code has more than 24,576 bytes") } else { Ok(()) }
    }
}

/// A second line of this name would overwrite what the first one says.
fn once(met: &mut Vec<&'static str>, name: &'static str) -> Result<(), BadTrace> {
    if met.contains(&name) {
        return bad(&format!("a second line of {name}"));
    }
    met.push(name);
    Ok(())
}

fn bytes(text: &str) -> Option<Vec<u8>> {
    // the digits are tested first, since `from_str_radix` takes a sign
    let digits = text
        .strip_prefix("0x")
        .filter(|digits| digits.len().is_multiple_of(2) && digits.bytes().all(|digit| digit.is_ascii_hexdigit()))?;
    (0..digits.len()).step_by(2).map(|at| u8::from_str_radix(&digits[at..at + 2], 16).ok()).collect()
}

fn step(words: &mut Words) -> Result<TraceStep, BadTrace> {
    let mut numbers = [0; STEP];
    let name = words.next()?;
    numbers[0] = match op::by_name(name) {
        Some(op) => op.into(),
        None => Words::of(name).number().or_else(|_| bad(&format!("`{name}` is no opcode's name and no number")))?,
    };
    if words.took("pc") {
        numbers[1] = words.number()?;
    }
    Ok(TraceStep { numbers, slots: Vec::new(), entries: Vec::new() })
}

impl TraceStep {
    fn put_line(&mut self, name: &str, words: &mut Words, met: &mut Vec<&'static str>) -> Result<(), BadTrace> {
        match name {
            "first" => {
                once(met, "first")?;
                self.numbers[2..23].copy_from_slice(&words.slot()?);
            }
            "second" => {
                once(met, "second")?;
                self.numbers[23..44].copy_from_slice(&words.slot()?);
            }
            "pick" => {
                once(met, "pick")?;
                self.numbers[44] = words.number()?;
            }
            "load" | "load-flag" => {
                once(met, "load or load-flag")?;
                self.numbers[45] = if name == "load" { 1 } else { words.number()? };
                self.numbers[46..].copy_from_slice(&words.label()?);
            }
            "slot" => self.slots.push(words.slot()?),
            "entry" => self.entries.push(entry(words)?),
            _ => unreachable!("`{name}` is no line of a step"),
        }
        if self.is_over() { bad("a step has more than 256 slots or entries") } else { Ok(()) }
    }
}

fn entry(words: &mut Words) -> Result<[u32; ENTRY], BadTrace> {
    let mut entry = [0; ENTRY];
    entry[0] = words.number()?;
    if words.took("replaced") {
        entry[1] = words.number()?;
    }
    entry[2..].copy_from_slice(&words.label()?);
    Ok(entry)
}
