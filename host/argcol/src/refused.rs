use core::fmt;

/// A refusal: the first question of document 01 whose answer was "no". Whatever the call was handed is as it was.
///
/// Later versions add refusals, so that a `match` has an arm for others:
///
/// ```
/// use argcol::Refused;
///
/// fn is_for_want_of_room(refused: Refused) -> bool {
///     match refused {
///         Refused::NoRoom | Refused::TextTooLong => true,
///         _ => false,
///     }
/// }
/// assert!(is_for_want_of_room(Refused::NoRoom));
/// ```
///
/// Without it, nothing is compiled, whatever is listed:
///
/// ```compile_fail,E0004
/// use argcol::Refused::*;
///
/// fn number(refused: argcol::Refused) -> u32 {
///     match refused {
///         RecordCount | Unsound | LongCode | Sizes | Labels | Step | EmptyStack | NoRoom => 1,
///         ShortTypes | NotTypes | TextTooLong => 2,
///     }
/// }
/// ```
#[derive(Clone, Copy, Debug, PartialEq, Eq, Hash, PartialOrd, Ord)]
#[non_exhaustive]
pub enum Refused {
    /// The fact table is not 1 to 16,384 records of 11 numbers.
    RecordCount = 1,
    /// The head or the fact table is not sound.
    Unsound = 2,
    /// The code has more than 65,536 bytes.
    LongCode = 3,
    /// Stack or memory are not whole slots and entries, at most 1,024 each, or the step is not 59 numbers.
    Sizes = 4,
    /// A label or a replaced mark is not well formed, or a label's path is no used record.
    Labels = 5,
    /// The opcode, the pick, the load flag or a copy's place in memory is out of range.
    Step = 6,
    /// The stack has no slot for what the opcode gives.
    EmptyStack = 7,
    /// The call would add more records than are free.
    NoRoom = 8,
    /// A closing's type slice has fewer than 8,192 numbers.
    ShortTypes = 9,
    /// The codes are no whole number of well-formed types, or more than 8,192.
    NotTypes = 10,
    /// The text is longer than the slice for it.
    TextTooLong = 11,
}

impl Refused {
    /// All refusals, by their numbers.
    pub const ALL: &'static [Self] = &[
        Self::RecordCount,
        Self::Unsound,
        Self::LongCode,
        Self::Sizes,
        Self::Labels,
        Self::Step,
        Self::EmptyStack,
        Self::NoRoom,
        Self::ShortTypes,
        Self::NotTypes,
        Self::TextTooLong,
    ];

    /// Document 01's number of the question.
    ///
    /// ```
    /// assert_eq!(argcol::Refused::NoRoom.number(), 8);
    /// ```
    pub const fn number(self) -> u32 {
        self as u32
    }

    /// The refusal of a number, if this crate knows one.
    ///
    /// ```
    /// use argcol::Refused;
    ///
    /// assert_eq!(Refused::from_number(8), Some(Refused::NoRoom));
    /// assert_eq!(Refused::from_number(0), None);
    /// ```
    pub fn from_number(number: u32) -> Option<Self> {
        Self::ALL.iter().copied().find(|refused| refused.number() == number)
    }

    /// What is wrong, in words.
    ///
    /// ```
    /// assert_eq!(argcol::Refused::LongCode.reason(), "the code has more than 65,536 bytes");
    /// ```
    pub const fn reason(self) -> &'static str {
        match self {
            Self::RecordCount => "the fact table is not 1 to 16,384 records of 11 numbers",
            Self::Unsound => "the head or the fact table is not sound",
            Self::LongCode => "the code has more than 65,536 bytes",
            Self::Sizes => {
                "the stack or the memory is not whole slots or entries, or more than 1,024 of them, or the step is \
                 not 59 numbers"
            }
            Self::Labels => "a label or a replaced mark is not well formed, or a label's path is no used record",
            Self::Step => {
                "the opcode is above 255, the pick is no entry, the load flag does not go with its label, or the \
                 second word of a CALLDATACOPY is 2^32 or more"
            }
            Self::EmptyStack => "the stack has no slot for what the opcode gives",
            Self::NoRoom => "the call adds more records than are free",
            Self::ShortTypes => "the type slice has fewer than 8,192 numbers",
            Self::NotTypes => "the codes are no whole number of well-formed types, or more than 8,192",
            Self::TextTooLong => "the text is longer than the slice for it",
        }
    }
}

impl fmt::Display for Refused {
    fn fmt(&self, f: &mut fmt::Formatter<'_>) -> fmt::Result {
        write!(f, "refused by question {}: {}", self.number(), self.reason())
    }
}

impl core::error::Error for Refused {}
