//! The refusals, with the papers' numbers.

/// Why a call was refused. Nothing has changed then.
#[derive(Clone, Copy, Debug, PartialEq, Eq)]
#[repr(u8)]
pub enum Refusal {
    /// The line is unreadable or too long.
    Unreadable = 1,
    /// Updates not 1 to 4, or histories not 1 to 16.
    WrongCount = 2,
    /// There is no such history.
    NoHistory = 3,
    /// A history stands there twice.
    HistoryTwice = 4,
    /// An operand is out of range, or an `unk` has a version.
    BadOperand = 5,
    /// Nothing orders the operation.
    Unordered = 6,
    /// The id is future, in progress or a waiting redo.
    Underway = 7,
    /// The operation is done already.
    AlreadyDone = 8,
    /// A `not` asks for a version that is gone.
    VersionGone = 9,
    /// 64 operations are live.
    TableFull = 10,
    /// The operation is not in the state that the call needs.
    WrongState = 11,
    /// The log or the keeper is full.
    NoRoom = 12,
    /// A number above what there is, or a buffer above 65,536 bytes.
    Beyond = 13,
    /// The call does not belong here now.
    WrongTime = 14,
    /// The log cannot be restarted from.
    BadLog = 15,
    /// A log number that is not among the lines.
    NotAmong = 16,
    /// An added `unk` in a history at the highest version.
    HighestVersion = 17,
    /// A threshold of 0, or above the number of full copies.
    BadThreshold = 18,
    /// A site that the operation was not sent to, or an operation without a record.
    NotSent = 19,
    /// The line is in conflict with one that the keeper holds.
    Conflict = 20,
    /// No number of kept bytes leaves these places.
    NoLength = 21,
    /// A card of no lines, or of more than 1,024.
    WindowRange = 22,
}

impl Refusal {
    /// The number that the paper gives it.
    pub fn number(self) -> u64 {
        self as u64
    }
}

/// Refuses when the condition holds.
pub fn refuse_if(condition: bool, refusal: Refusal) -> Result<(), Refusal> {
    if condition {
        Err(refusal)
    } else {
        Ok(())
    }
}
