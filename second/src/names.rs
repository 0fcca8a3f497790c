//! Names, and the tables of known programs and terminals.

use crate::conditions::Condition;

/// A name of `N` bytes. "Bytes are compared as they stand."
#[derive(Clone, Copy, PartialEq, Eq, PartialOrd, Ord, Debug)]
pub struct Name<const N: usize>(pub [u8; N]);

/// The name of a queue.
pub type QueueName = Name<8>;
/// The name of a request, and of the active task that it started.
pub type RequestName = Name<8>;
/// The name of a program.
pub type ProgramName = Name<4>;
/// The name of a terminal; a blank one means none.
pub type TerminalName = Name<4>;

impl<const N: usize> Name<N> {
    /// "A name of spaces only (hex 20) is blank."
    pub const BLANK: Self = Name([0x20; N]);

    /// Whether the name is blank.
    pub fn is_blank(&self) -> bool {
        *self == Self::BLANK
    }

    /// The condition 10 that "every other blank" is refused with.
    pub fn refuse_blank(&self) -> Result<(), Condition> {
        if self.is_blank() {
            Err(Condition::InvalidRequest)
        } else {
            Ok(())
        }
    }
}

/// The text with spaces behind it; what is too long is cut off.
impl<const N: usize> From<&str> for Name<N> {
    fn from(text: &str) -> Self {
        let mut name = Self::BLANK;
        for (place, byte) in name.0.iter_mut().zip(text.bytes()) {
            *place = byte;
        }
        name
    }
}

/// A table of defined names with a bound: the programs, or the terminals.
#[derive(Debug)]
pub struct Known {
    names: Vec<Name<4>>,
    bound: usize,
}

impl Known {
    /// An empty table for at most `bound` names.
    pub fn with_bound(bound: usize) -> Self {
        Known { names: Vec::with_capacity(bound), bound }
    }

    /// Commands 1 and 2: "10 if blank, 7 known, 1 full".
    pub fn define(&mut self, name: Name<4>) -> Result<(), Condition> {
        name.refuse_blank()?;
        if self.knows(name) {
            return Err(Condition::NotUnique);
        }
        if self.is_full() {
            return Err(Condition::NoSpace);
        }
        self.names.push(name);
        Ok(())
    }

    /// Whether the name has been defined. A blank one never has.
    pub fn knows(&self, name: Name<4>) -> bool {
        self.names.contains(&name)
    }

    /// Whether the table holds as many names as it may.
    pub fn is_full(&self) -> bool {
        self.names.len() == self.bound
    }

    /// The names in order of definition.
    pub fn names(&self) -> &[Name<4>] {
        &self.names
    }
}
