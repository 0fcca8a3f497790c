//! Answers, and what the handlers make of a condition.

use crate::bounds::ANSWER;
use crate::conditions::Condition;
use crate::piece::Piece;
use std::num::NonZeroU16;

/// "0 go on, 1 go to label, 2 abend"
#[derive(Clone, Copy, PartialEq, Eq, Debug)]
pub enum Action {
    /// The issuer goes on.
    GoOn,
    /// The task goes to its label.
    Label(NonZeroU16),
    /// The task is removed.
    Abend,
}

impl Action {
    /// Document 01's number for the action.
    pub fn number(self) -> u8 {
        match self {
            Action::GoOn => 0,
            Action::Label(_) => 1,
            Action::Abend => 2,
        }
    }

    /// The label, "0 unless action 1".
    pub fn label(self) -> u16 {
        match self {
            Action::Label(label) => label.get(),
            Action::GoOn | Action::Abend => 0,
        }
    }
}

/// What a record is answered with.
#[derive(Clone, Copy, PartialEq, Eq, Debug)]
pub struct Answer {
    /// How the command came out.
    pub condition: Condition,
    /// What the issuer does then.
    pub action: Action,
    /// The number of the command's row.
    pub number: u32,
    /// The bytes given.
    pub bytes: Piece,
}

impl Answer {
    /// An answer that passes by the handlers: "action 0, number 0 and no bytes".
    pub fn bare(condition: Condition) -> Answer {
        Answer { condition, action: Action::GoOn, number: 0, bytes: Piece::EMPTY }
    }

    /// Writes the answer at the front of `buffer` and gives the number of
    /// bytes written, or nothing if the buffer is too short.
    pub fn write(&self, buffer: &mut [u8]) -> Option<usize> {
        let bytes = self.bytes.bytes();
        let total = ANSWER - crate::bounds::PIECE + bytes.len();
        let buffer = buffer.get_mut(..total)?;
        buffer[..2].copy_from_slice(&(total as u16 - 2).to_be_bytes());
        buffer[2] = self.condition.number();
        buffer[3] = self.action.number();
        buffer[4..6].copy_from_slice(&self.action.label().to_be_bytes());
        buffer[6..10].copy_from_slice(&self.number.to_be_bytes());
        buffer[10..].copy_from_slice(bytes);
        Some(total)
    }
}
