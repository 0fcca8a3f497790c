//! The command list and its entries (document 01, "The list and the answers").

use crate::answer::Answer;
use crate::bounds::{ANSWER, LIST, RECORD};
use crate::monitor::Monitor;

/// Why a list is refused with 35.
#[derive(Clone, Copy, PartialEq, Eq, PartialOrd, Ord, Debug)]
pub enum Misframed {
    /// Fewer than 9 bytes.
    TotalTooShort,
    /// More than 4,096 bytes.
    TotalTooLong,
    /// The header's length is not that of what follows it.
    LengthField,
    /// The version is not 1.
    Version,
    /// A record length below 9.
    RecordTooShort,
    /// A record, or its length field, runs past the end.
    RecordPastEnd,
}

/// Why a list runs nothing.
#[derive(Clone, Copy, PartialEq, Eq, Debug)]
pub enum Refusal {
    /// 35: the list does not frame.
    List(Misframed),
    /// 36: "the answer buffer has fewer than 74 bytes per record".
    Room,
}

impl Refusal {
    /// Document 01's number for the refusal.
    pub fn number(self) -> u8 {
        match self {
            Refusal::List(_) => 35,
            Refusal::Room => 36,
        }
    }
}

/// A list whose frame has been found good.
#[derive(Clone, Copy, Debug)]
pub struct Framed<'a> {
    /// The start value of the register.
    pub start: u32,
    /// How many records there are.
    pub count: usize,
    records: &'a [u8],
}

impl<'a> Framed<'a> {
    /// The records in order, without their length fields.
    pub fn records(&self) -> impl Iterator<Item = &'a [u8]> {
        let mut left = self.records;
        std::iter::from_fn(move || {
            let (record, rest) = split_record(left).ok()?;
            left = rest;
            Some(record)
        })
    }
}

/// Frames a list whole: "It is framed whole before anything runs."
pub fn frame(list: &[u8]) -> Result<Framed<'_>, Misframed> {
    if list.len() > *LIST.end() {
        return Err(Misframed::TotalTooLong);
    }
    let (header, records) = list.split_first_chunk::<9>().ok_or(Misframed::TotalTooShort)?;
    let [l0, l1, l2, l3, version, s0, s1, s2, s3] = *header;
    if u32::from_be_bytes([l0, l1, l2, l3]) as usize != list.len() - 4 {
        return Err(Misframed::LengthField);
    }
    if version != 1 {
        return Err(Misframed::Version);
    }
    Ok(Framed {
        start: u32::from_be_bytes([s0, s1, s2, s3]),
        count: count_records(records)?,
        records,
    })
}

/// "Records fill the list exactly."
fn count_records(mut left: &[u8]) -> Result<usize, Misframed> {
    let mut count = 0;
    while !left.is_empty() {
        (_, left) = split_record(left)?;
        count += 1;
    }
    Ok(count)
}

/// Splits the first record, without its length field, from the rest.
fn split_record(left: &[u8]) -> Result<(&[u8], &[u8]), Misframed> {
    let (length, rest) = left.split_first_chunk().ok_or(Misframed::RecordPastEnd)?;
    let length = usize::from(u16::from_be_bytes(*length));
    if length < RECORD {
        return Err(Misframed::RecordTooShort);
    }
    rest.split_at_checked(length).ok_or(Misframed::RecordPastEnd)
}

/// Runs a list from fresh tables, its answers having `room` bytes.
pub fn run(list: &[u8], room: usize) -> Result<Vec<Answer>, Refusal> {
    let framed = admit(list, room)?;
    let mut monitor = Monitor::fresh(framed.start);
    let mut answers = Vec::with_capacity(framed.count);
    answers.extend(framed.records().map(|record| monitor.record(record)));
    Ok(answers)
}

/// Runs a list and writes its answers into `buffer`: "Each answer goes into
/// the lent buffer behind the one before it; bytes past the last answer keep
/// their values." Gives the number of bytes written.
pub fn run_into(list: &[u8], buffer: &mut [u8]) -> Result<usize, Refusal> {
    let framed = admit(list, buffer.len())?;
    let mut monitor = Monitor::fresh(framed.start);
    let mut end = 0;
    for record in framed.records() {
        let answer = monitor.record(record);
        end += answer.write(&mut buffer[end..]).ok_or(Refusal::Room)?;
    }
    Ok(end)
}

/// 35, "then, 36 exactly if the answer buffer has fewer than 74 bytes per
/// record".
fn admit(list: &[u8], room: usize) -> Result<Framed<'_>, Refusal> {
    let framed = frame(list).map_err(Refusal::List)?;
    if room < ANSWER * framed.count {
        return Err(Refusal::Room);
    }
    Ok(framed)
}
