//! The conditions of document 01.

/// How a command came out. The numbers are document 01's.
#[derive(Clone, Copy, PartialEq, Eq, PartialOrd, Ord, Debug)]
#[repr(u8)]
pub enum Condition {
    /// The command did what it says.
    Normal = 0,
    /// A table is full.
    NoSpace = 1,
    /// No queue has this name.
    UnknownQueue = 2,
    /// The queue has no item there.
    NoSuchItem = 3,
    /// An item or data of a wrong length, or a room too short for it.
    Length = 4,
    /// No program has this name.
    UnknownProgram = 5,
    /// No terminal has this name.
    UnknownTerminal = 6,
    /// The name is in use.
    NotUnique = 7,
    /// Nothing to cancel, or nothing startable.
    NotFound = 8,
    /// No data left to retrieve.
    EndOfData = 9,
    /// A blank name, a number above its bound, or the wrong kind of issuer.
    InvalidRequest = 10,
    /// The record is malformed; passes by the handlers.
    Malformed = 33,
    /// The issuer is neither blank nor an active task; passes by the handlers.
    Stranger = 34,
}

impl Condition {
    /// Document 01's number for the condition.
    pub fn number(self) -> u8 {
        self as u8
    }
}
