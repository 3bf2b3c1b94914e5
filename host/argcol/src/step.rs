use crate::{
    label::Label,
    layout::{LABEL, SLOT, STEP},
    numbers::BadNumbers,
    slot::Slot,
};

/// What the machine hands over after an opcode ran.
#[derive(Clone, Copy, Debug, Default, PartialEq, Eq, Hash)]
pub struct Step {
    /// The opcode's byte; [`op`](crate::op) has the names.
    pub op: u8,
    /// The place in the code after the step, at which the next opcode is read.
    pub pc: u32,
    /// As the published `StepResult` has them: mostly what was taken off the stack first and second, but for a
    /// CALLDATACOPY its place in the call data and then the one in memory.
    pub operands: [Slot; 2],
    /// The memory entry that a copy finds. It counts from 0, as slices do; document 01's number and the text form of
    /// traces count from 1.
    pub pick: Option<u32>,
    /// The label of the one chunk that covers exactly bytes 0 to 32 of a memory load.
    pub load: Option<Label>,
}

impl Step {
    /// A step of this opcode with no operands, at pc 0.
    ///
    /// ```
    /// use argcol::{Step, op};
    ///
    /// assert_eq!(Step::new(op::STOP), Step::default());
    /// ```
    pub fn new(op: u8) -> Self {
        Self { op, ..Self::default() }
    }

    /// The same with this place in the code after it.
    ///
    /// ```
    /// use argcol::{Step, op};
    ///
    /// assert_eq!(Step::new(op::JUMPDEST).at(7).pc, 7);
    /// ```
    pub const fn at(self, pc: u32) -> Self {
        Self { pc, ..self }
    }

    /// The same with this first operand.
    ///
    /// ```
    /// use argcol::{Slot, Step, op};
    ///
    /// assert_eq!(Step::new(op::ISZERO).on(Slot::plain(4)).operands, [Slot::plain(4), Slot::default()]);
    /// ```
    pub const fn on(self, first: Slot) -> Self {
        Self { operands: [first, self.operands[1]], ..self }
    }

    /// The same with these two operands.
    ///
    /// ```
    /// use argcol::{Arg, Slot, Step, op};
    ///
    /// let step = Step::new(op::MUL).on_both(Slot::plain(0).with_label(Arg::at(0, 2)), Slot::plain(32));
    /// assert_eq!(step.operands[1], Slot::plain(32));
    /// ```
    pub const fn on_both(self, first: Slot, second: Slot) -> Self {
        Self { operands: [first, second], ..self }
    }

    /// The same with the memory entry that a copy finds, from 0.
    ///
    /// ```
    /// use argcol::{STEP, Step, op};
    ///
    /// let numbers = <[u32; STEP]>::from(&Step::new(op::CALLDATACOPY).picking(0));
    /// assert_eq!(numbers[44], 1);
    /// ```
    pub const fn picking(self, entry: u32) -> Self {
        Self { pick: Some(entry), ..self }
    }

    /// The same with the label of a memory load.
    ///
    /// ```
    /// use argcol::{Label, Step, op};
    ///
    /// assert_eq!(Step::new(op::MLOAD).loading(Label::CallData).load, Some(Label::CallData));
    /// ```
    pub fn loading(self, label: impl Into<Label>) -> Self {
        Self { load: Some(label.into()), ..self }
    }
}

impl From<&Step> for [u32; STEP] {
    #[inline]
    fn from(step: &Step) -> Self {
        let mut out = [0; STEP];
        (out[0], out[1]) = (u32::from(step.op), step.pc);
        step.operands[0].put(out[2..].first_chunk_mut().unwrap());
        step.operands[1].put(out[23..].first_chunk_mut().unwrap());
        out[44] = step.pick.map_or(0, |at| at.saturating_add(1));
        if let Some(label) = step.load {
            out[45] = 1;
            label.put(out.last_chunk_mut().unwrap());
        }
        out
    }
}

impl TryFrom<&[u32; STEP]> for Step {
    type Error = BadNumbers;

    fn try_from(numbers: &[u32; STEP]) -> Result<Self, BadNumbers> {
        let operand = |at: usize| Slot::try_from(numbers[at..].first_chunk::<SLOT>().unwrap());
        let load = match (numbers[45], Label::try_from(numbers.last_chunk::<LABEL>().unwrap())?) {
            (0, Label::None) => None,
            (1, label) => Some(label),
            _ => return Err(BadNumbers("the load flag is 0 or 1, and without it there is no label")),
        };
        Ok(Self {
            op: numbers[0].try_into().map_err(|_| BadNumbers("an opcode is at most 255"))?,
            pc: numbers[1],
            operands: [operand(2)?, operand(23)?],
            pick: numbers[44].checked_sub(1),
            load,
        })
    }
}
