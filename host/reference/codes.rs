//! The paper's table of answer codes, without 0, which is `Ok`, and without 1:
//! a run never meets a state out of range.

#[derive(Clone, Copy, PartialEq, Eq, Debug)]
pub enum Refusal {
    UnknownKind = 2,
    WrongNode = 3,
    NotAllowed = 4,
    TermLimit = 5,
    HistoryFull = 6,
    QueueFull = 7,
    BadLength = 8,
    BadMark = 9,
    BadNodeCount = 10,
    BadExtent = 11,
    OutTooShort = 12,
}

/// A step is done, or refused with the state as it was.
pub type Outcome = Result<(), Refusal>;

pub fn answer_byte(outcome: Outcome) -> u8 {
    match outcome {
        Ok(()) => 0,
        Err(refusal) => refusal as u8,
    }
}

/// The refusal unless the condition holds.
pub fn ensure(condition: bool, refusal: Refusal) -> Outcome {
    if condition {
        Ok(())
    } else {
        Err(refusal)
    }
}
