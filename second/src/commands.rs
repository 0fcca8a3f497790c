//! The commands and their operands.

use crate::interval::Start;
use crate::names::{Name, ProgramName, QueueName, RequestName, TerminalName};

/// A well-formed command with its operands, as its row of the table has them.
#[derive(Clone, Copy, PartialEq, Eq, Debug)]
#[allow(missing_docs)] // the names say what each operand is
pub enum Command<'a> {
    DefineProgram(ProgramName),
    DefineTerminal(TerminalName),
    Advance { ticks: u32 },
    Ask,
    Dispatch,
    Start(Start<'a>),
    Cancel(RequestName),
    Retrieve { room: u8 },
    Finish,
    Append { queue: QueueName, item: &'a [u8] },
    ReadNext { queue: QueueName, room: u8 },
    ReadAt { queue: QueueName, place: u16, room: u8 },
    Rewrite { queue: QueueName, place: u16, item: &'a [u8] },
    Delete(QueueName),
    Handle { condition: u8, label: u16 },
    Ignore { condition: u8 },
    Reset { condition: u8 },
}

impl<'a> Command<'a> {
    /// Reads a record (without its length field) into the issuer's name and
    /// the command; `None` if it is malformed: "command not 1..17, or operands
    /// not of the size below", or fewer than 9 bytes.
    pub fn parse(record: &'a [u8]) -> Option<(Name<8>, Command<'a>)> {
        let (&number, rest) = record.split_first()?;
        let mut operands = Operands(rest);
        let issuer = operands.name()?;
        let command = operands.command(number)?;
        operands.0.is_empty().then_some((issuer, command))
    }
}

/// The bytes of a record that have not been read yet.
struct Operands<'a>(&'a [u8]);

impl<'a> Operands<'a> {
    fn command(&mut self, number: u8) -> Option<Command<'a>> {
        use Command::*;
        Some(match number {
            1 => DefineProgram(self.name()?),
            2 => DefineTerminal(self.name()?),
            3 => Advance { ticks: self.four()? },
            4 => Ask,
            5 => Dispatch,
            6 => Start(self.start()?),
            7 => Cancel(self.name()?),
            8 => Retrieve { room: self.one()? },
            9 => Finish,
            10 => Append { queue: self.name()?, item: self.rest() },
            11 => ReadNext { queue: self.name()?, room: self.one()? },
            12 => ReadAt { queue: self.name()?, place: self.two()?, room: self.one()? },
            13 => Rewrite { queue: self.name()?, place: self.two()?, item: self.rest() },
            14 => Delete(self.name()?),
            15 => Handle { condition: self.one()?, label: self.two()? },
            16 => Ignore { condition: self.one()? },
            17 => Reset { condition: self.one()? },
            _ => return None,
        })
    }

    fn start(&mut self) -> Option<Start<'a>> {
        Some(Start {
            request: self.name()?,
            program: self.name()?,
            terminal: self.name()?,
            interval: self.four()?,
            data: self.rest(),
        })
    }

    fn take<const N: usize>(&mut self) -> Option<[u8; N]> {
        let (taken, left) = self.0.split_first_chunk()?;
        self.0 = left;
        Some(*taken)
    }

    fn name<const N: usize>(&mut self) -> Option<Name<N>> {
        self.take().map(Name)
    }

    fn one(&mut self) -> Option<u8> {
        self.take().map(u8::from_be_bytes)
    }

    fn two(&mut self) -> Option<u16> {
        self.take().map(u16::from_be_bytes)
    }

    fn four(&mut self) -> Option<u32> {
        self.take().map(u32::from_be_bytes)
    }

    /// "Rest" is every byte left.
    fn rest(&mut self) -> &'a [u8] {
        std::mem::take(&mut self.0)
    }
}
