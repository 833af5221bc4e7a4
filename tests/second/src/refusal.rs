//! The refusal numbers.

/// Numbers 14 and 99 have no case: nothing here writes into a lent slice, and
/// this desk starts fresh and is never handed in.
#[derive(Clone, Copy, Debug, PartialEq, Eq)]
pub enum Refusal {
    Short = 1,
    Mark = 2,
    Version = 3,
    Kind = 4,
    NotZero = 5,
    Range = 6,
    TooManyBoards = 7,
    TooManyNeeds = 8,
    WrongPhase = 9,
    NoBoard = 10,
    TargetBelowClock = 11,
    ReplyTooShort = 12,
    NoSuchPlace = 13,
    NotALine = 15,
}

impl Refusal {
    pub fn number(self) -> u32 {
        self as u32
    }
}
