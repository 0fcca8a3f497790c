//! Document 01, "Numbers".

use std::ops::RangeInclusive;

/// Programs that can be defined.
pub const PROGRAMS: usize = 16;
/// Terminals that can be defined.
pub const TERMINALS: usize = 8;
/// Requests known at once, in every phase.
pub const REQUESTS: usize = 32;
/// Queues that can exist at once.
pub const QUEUES: usize = 16;
/// Items over all queues.
pub const ITEMS: usize = 128;
/// The longest item, and the longest start data, in bytes.
pub const PIECE: usize = 64;
/// The longest interval in ticks: 99 h 59 min 59 s.
pub const INTERVAL: u32 = 359_999_000;
/// The longest single advance in ticks.
pub const ADVANCE: u32 = 1_000_000_000;
/// Bytes of a command list, header counted.
pub const LIST: RangeInclusive<usize> = 9..=4096;
/// The least length of a record: its command byte and its issuer.
pub const RECORD: usize = 9;
/// Bytes of the longest answer, its length field counted.
pub const ANSWER: usize = 74;
/// The highest condition that the handlers know.
pub const HIGHEST_CONDITION: u8 = 10;
/// The highest command.
pub const HIGHEST_COMMAND: u8 = 17;
