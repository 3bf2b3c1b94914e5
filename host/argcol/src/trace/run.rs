//! The calls that a trace stands for.

use super::{CODE_LIMIT, RECORDS, Trace};
use crate::{Error, Session};
use alloc::{format, string::String};

const INPUT_REFUSED: &str = "input refused\n";

impl Trace {
    /// Makes the calls, and gives the lines that the printer prints, those for a refusal too. What is larger than the
    /// printer takes is met when it would read that: long code before any step, a step of too many slots or entries
    /// before its own call.
    ///
    /// # Errors
    ///
    /// [`Error::Version`] and [`Error::Unknown`].
    ///
    /// ```
    /// use argcol::trace::Trace;
    ///
    /// let trace = Trace::from_text("step CALLDATALOAD\n  first 4\n  slot 5\n")?;
    /// assert_eq!(trace.run()?, "args 1 left 8190 head 32\n0 uint256\n");
    /// # Ok::<(), Box<dyn std::error::Error>>(())
    /// ```
    pub fn run(&self) -> Result<String, Error> {
        if self.code.len() > CODE_LIMIT {
            return Ok(INPUT_REFUSED.into());
        }
        let mut session = Session::new(RECORDS)?;
        for (i, step) in self.steps.iter().enumerate() {
            if step.is_over() {
                return Ok(INPUT_REFUSED.into());
            }
            let mut slots = step.slots.as_flattened().to_vec();
            let mut entries = step.entries.as_flattened().to_vec();
            if let Err(error) = session.step_numbers(&self.code, &mut slots, &mut entries, &step.numbers) {
                return refused(error, i + 1);
            }
        }
        match session.close(&self.code, self.start, self.packed.then_some(self.word)) {
            Err(error) => refused(error, 0),
            Ok(closing) => Ok(format!("{closing}\n")),
        }
    }
}

/// The line of a refusal at a step, or at the closing, which is step 0.
fn refused(error: Error, step: usize) -> Result<String, Error> {
    let refused = error.refused().ok_or(error)?;
    Ok(format!("refused {} at {step}\n", refused.number()))
}
