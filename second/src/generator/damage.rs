//! Lists that do not frame, lists with changed bytes, and noise.

use crate::bounds::LIST;
use crate::build::{List, Record};
use crate::list::{frame, Misframed};
use crate::names::Name;
use crate::random::Random;

const WAYS: [Misframed; 6] = [
    Misframed::TotalTooShort,
    Misframed::TotalTooLong,
    Misframed::LengthField,
    Misframed::Version,
    Misframed::RecordTooShort,
    Misframed::RecordPastEnd,
];

/// Spoils the frame of a good list in one of the ways document 01 names.
pub fn damage(random: &mut Random, mut list: Vec<u8>) -> Vec<u8> {
    match random.pick(&WAYS).unwrap_or(Misframed::Version) {
        Misframed::TotalTooShort => list.truncate(random.below(9)),
        Misframed::TotalTooLong => lengthen(random, &mut list),
        Misframed::LengthField => spoil_length(random, &mut list),
        Misframed::Version => list[4] = random.pick(&[0, 2, 3, 255]).unwrap_or(0),
        Misframed::RecordTooShort => shorten_record(random, &mut list),
        Misframed::RecordPastEnd => run_past_end(random, &mut list),
    }
    list
}

/// The header's length made to match again.
fn mend_length(list: &mut [u8]) {
    let length = (list.len() as u32).saturating_sub(4).to_be_bytes();
    list[..4].copy_from_slice(&length);
}

/// A list that frames but for its total: 4,097 bytes, or some more.
fn lengthen(random: &mut Random, list: &mut Vec<u8>) {
    let more = *LIST.end() + 1 - list.len() + random.pick(&[0, 0, 1, 500]).unwrap_or(0);
    // One last record of no meaning fills the rest; where the rest is too
    // short for one, it grows to the least record.
    let more = more.max(11);
    list.extend_from_slice(&(more as u16 - 2).to_be_bytes());
    list.extend(random.bytes(more - 2));
    mend_length(list);
}

fn spoil_length(random: &mut Random, list: &mut [u8]) {
    let length = (list.len() - 4) as u32;
    let wrong = match random.below(4) {
        0 => length - 1,
        1 => length + 1,
        2 => length + 4, // the header counted in
        _ => length ^ random.between(1, u32::MAX),
    };
    list[..4].copy_from_slice(&wrong.to_be_bytes());
}

/// Where the length fields of the records stand.
fn length_fields(list: &[u8]) -> Vec<usize> {
    let mut offset = 9;
    let mut fields = Vec::new();
    for record in frame(list).iter().flat_map(|framed| framed.records()) {
        fields.push(offset);
        offset += 2 + record.len();
    }
    fields
}

fn shorten_record(random: &mut Random, list: &mut Vec<u8>) {
    let fields = length_fields(list);
    let short = random.between(0, 8) as u8;
    // The record loses bytes too, so that the list frames but for this.
    let field = random.pick(&fields).unwrap_or(list.len());
    let end = fields.iter().copied().find(|&next| next > field).unwrap_or(list.len());
    let kept = random.bytes(usize::from(short));
    list.splice(field..end, [0, short].into_iter().chain(kept));
    mend_length(list);
}

fn run_past_end(random: &mut Random, list: &mut Vec<u8>) {
    let fields = length_fields(list);
    match (random.below(3), fields.last()) {
        // A byte of the last record is missing.
        (0, Some(_)) => list.truncate(list.len() - 1),
        // The last length is more than the list has.
        (1, Some(&field)) => list[field] |= 0x80,
        // A lone byte: a length field that runs past the end.
        _ => {
            list.truncate(fields.last().copied().unwrap_or(9));
            list.push(0);
        }
    }
    mend_length(list);
}

/// Changes a few bytes anywhere.
pub fn change(random: &mut Random, mut list: Vec<u8>) -> Vec<u8> {
    for _ in 0..random.between(1, 4) {
        // The header is a small part of the list, and often enough hit.
        let place = random.below(list.len());
        list[place] = random.next_u64() as u8;
    }
    list
}

/// Records of random bytes in a good frame, or random bytes alone.
pub fn noise(random: &mut Random) -> Vec<u8> {
    if random.chance(40) {
        let length = random.below(*LIST.end() + 200);
        return random.bytes(length);
    }
    let mut list = List::starting_at(random.next_u64() as u32);
    while list.length() < *LIST.end() - 100 {
        let length = random.below(40);
        let operands = random.bytes(length);
        let issuer = random.bytes(8);
        let known = random.chance(50);
        let issuer = issuer.try_into().ok().filter(|_| !known);
        let command = random.between(0, 40) as u8;
        let record = Record::raw(command, &operands);
        list.add(&record.by(issuer.map_or(Name::BLANK, Name)));
    }
    list.finished()
}
