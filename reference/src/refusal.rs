//! The refusals of a text.

use std::fmt;

/// Why a text is refused; the numbers are those of the table in docs/TEXT.md.
#[derive(Clone, Copy, Debug, PartialEq, Eq, PartialOrd, Ord)]
pub enum Cause {
    TextTooLong = 11,
    NoToken = 12,
    NotAllowed = 13,
    TooDeep = 14,
    NotVisible = 15,
    Redeclared = 16,
    ArgumentCount = 17,
    OutOfRange = 18,
    OverLimit = 19,
    WrittenTwice = 20,
    ReferencedTwice = 21,
    PortTwice = 22,
    Uncaught = 23,
}

impl Cause {
    pub fn stage(self) -> u32 {
        match self as u32 {
            11 | 12 => 1,
            13 | 14 => 2,
            15..=18 => 3,
            19 => 4,
            _ => 5,
        }
    }
}

/// A refusal: its cause, and the offset of the token or the statement at fault.
#[derive(Clone, Copy, Debug, PartialEq, Eq)]
pub struct Refusal {
    pub cause: Cause,
    pub offset: usize,
}

/// A refusal as the error of a stage.
pub fn refuse<T>(cause: Cause, offset: usize) -> Result<T, Refusal> {
    Err(Refusal { cause, offset })
}

impl fmt::Display for Refusal {
    fn fmt(&self, out: &mut fmt::Formatter) -> fmt::Result {
        let (number, stage) = (self.cause as u32, self.cause.stage());
        writeln!(out, "refused={} at={} stage={}", number, self.offset, stage)
    }
}
