//! Builders of records and lists, for the generator and the tests. A text
//! serves as a name.

use crate::names::Name;

/// A record in the making; the issuer is the system until [`Record::by`].
#[derive(Clone, PartialEq, Eq, Debug)]
pub struct Record {
    command: u8,
    issuer: Name<8>,
    operands: Vec<u8>,
}

impl Record {
    /// Any command with any operands, malformed ones included.
    pub fn raw(command: u8, operands: &[u8]) -> Record {
        Record { command, issuer: Name::BLANK, operands: operands.to_vec() }
    }

    /// The same record from another issuer.
    pub fn by(mut self, issuer: impl Into<Name<8>>) -> Record {
        self.issuer = issuer.into();
        self
    }

    /// The command and the operands, for making another record of them.
    pub fn parts(&self) -> (u8, &[u8]) {
        (self.command, &self.operands)
    }

    /// The record without its length field.
    pub fn bytes(&self) -> Vec<u8> {
        [&[self.command][..], &self.issuer.0, &self.operands].concat()
    }
}

/// Command 1.
pub fn define_program(name: impl Into<Name<4>>) -> Record {
    Record::raw(1, &name.into().0)
}

/// Command 2.
pub fn define_terminal(name: impl Into<Name<4>>) -> Record {
    Record::raw(2, &name.into().0)
}

/// Command 3.
pub fn advance(ticks: u32) -> Record {
    Record::raw(3, &ticks.to_be_bytes())
}

/// Command 4.
pub fn ask() -> Record {
    Record::raw(4, &[])
}

/// Command 5.
pub fn dispatch() -> Record {
    Record::raw(5, &[])
}

/// Command 6.
pub fn start(
    request: impl Into<Name<8>>,
    program: impl Into<Name<4>>,
    terminal: impl Into<Name<4>>,
    interval: u32,
    data: &[u8],
) -> Record {
    let (request, program, terminal) = (request.into(), program.into(), terminal.into());
    let interval = interval.to_be_bytes();
    let operands = [&request.0[..], &program.0, &terminal.0, &interval, data];
    Record::raw(6, &operands.concat())
}

/// Command 7.
pub fn cancel(request: impl Into<Name<8>>) -> Record {
    Record::raw(7, &request.into().0)
}

/// Command 8.
pub fn retrieve(room: u8) -> Record {
    Record::raw(8, &[room])
}

/// Command 9.
pub fn finish() -> Record {
    Record::raw(9, &[])
}

/// Command 10.
pub fn append(queue: impl Into<Name<8>>, item: &[u8]) -> Record {
    Record::raw(10, &[&queue.into().0, item].concat())
}

/// Command 11.
pub fn read_next(queue: impl Into<Name<8>>, room: u8) -> Record {
    Record::raw(11, &[&queue.into().0[..], &[room]].concat())
}

/// Command 12.
pub fn read_at(queue: impl Into<Name<8>>, place: u16, room: u8) -> Record {
    Record::raw(12, &[&queue.into().0[..], &place.to_be_bytes(), &[room]].concat())
}

/// Command 13.
pub fn rewrite(queue: impl Into<Name<8>>, place: u16, item: &[u8]) -> Record {
    Record::raw(13, &[&queue.into().0[..], &place.to_be_bytes(), item].concat())
}

/// Command 14.
pub fn delete(queue: impl Into<Name<8>>) -> Record {
    Record::raw(14, &queue.into().0)
}

/// Command 15.
pub fn handle(condition: u8, label: u16) -> Record {
    Record::raw(15, &[&[condition][..], &label.to_be_bytes()].concat())
}

/// Command 16.
pub fn ignore(condition: u8) -> Record {
    Record::raw(16, &[condition])
}

/// Command 17.
pub fn reset(condition: u8) -> Record {
    Record::raw(17, &[condition])
}

/// A list in the making.
#[derive(Clone, Debug)]
pub struct List {
    bytes: Vec<u8>,
}

impl List {
    /// A list without records, whose register starts at `start`.
    pub fn starting_at(start: u32) -> List {
        let start = start.to_be_bytes();
        List { bytes: [&[0, 0, 0, 0, 1][..], &start].concat() }
    }

    /// Adds a record.
    pub fn add(&mut self, record: &Record) {
        let bytes = record.bytes();
        let length = (bytes.len() as u16).to_be_bytes();
        self.bytes.extend_from_slice(&length);
        self.bytes.extend_from_slice(&bytes);
    }

    /// The bytes that the list has so far.
    pub fn length(&self) -> usize {
        self.bytes.len()
    }

    /// The list's bytes, the header's length filled in.
    pub fn finished(mut self) -> Vec<u8> {
        let length = (self.bytes.len() as u32 - 4).to_be_bytes();
        self.bytes[..4].copy_from_slice(&length);
        self.bytes
    }
}
