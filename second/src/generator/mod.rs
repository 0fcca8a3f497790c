//! Lists by seed. Each list is a pure function of the seed and its index; its
//! kind is a function of the index alone, so that every run of neighbouring
//! indices has every kind.

mod damage;
mod draft;
mod provoke;
mod scenarios;
mod walk;

use crate::random::Random;
use draft::Draft;

/// What a list is made for. All but the last three are 4,096 bytes at most,
/// frame well, and end in a walk over what their plan leaves of the room.
#[derive(Clone, Copy, PartialEq, Eq, PartialOrd, Ord, Debug)]
pub enum Kind {
    /// Commands chosen at random, with operands that mostly mean something.
    Walk,
    /// All five tables full at once.
    AllFull,
    /// 128 items, the empty queue made by a refused append, and freed slots.
    ItemsFull,
    /// 16 queues, and both reasons of no space at once.
    QueuesFull,
    /// 32 requests, and names used again.
    RequestsFull,
    /// 16 tasks active at once.
    TasksFull,
    /// A register near its wrap.
    Wrap,
    /// Requests left in the line through advances of 1,000,000,000.
    LeftExpired,
    /// Requests with equal due, accepted at different clocks.
    Ties,
    /// Abends of tasks that hold a terminal.
    TerminalAbend,
    /// Data of one's own and of others, whole and cut.
    Retrieve,
    /// A task's conditions with every action.
    Provoke,
    /// A list that does not frame.
    Damaged,
    /// A list with a few bytes changed anywhere.
    Changed,
    /// Records of random bytes, or nothing but random bytes.
    Noise,
}

/// The kinds in turn; those that reach more stand more than once.
const TURNS: [Kind; 21] = [
    Kind::Walk,
    Kind::Provoke,
    Kind::AllFull,
    Kind::Walk,
    Kind::ItemsFull,
    Kind::Provoke,
    Kind::QueuesFull,
    Kind::Walk,
    Kind::RequestsFull,
    Kind::TasksFull,
    Kind::Wrap,
    Kind::Provoke,
    Kind::LeftExpired,
    Kind::Walk,
    Kind::Ties,
    Kind::TerminalAbend,
    Kind::Retrieve,
    Kind::Walk,
    Kind::Damaged,
    Kind::Changed,
    Kind::Noise,
];

/// The kind of the list at an index.
pub fn kind(index: u64) -> Kind {
    TURNS[(index % TURNS.len() as u64) as usize]
}

/// The list at an index of a seed.
pub fn list(seed: u64, index: u64) -> Vec<u8> {
    let mut random = Random::stream(seed, index);
    let kind = kind(index);
    if kind == Kind::Noise {
        return damage::noise(&mut random);
    }
    let start = start_value(&mut random, kind);
    let mut draft = Draft::starting_at(start, random.clone());
    plan(kind)(&mut draft);
    walk::walk(&mut draft);
    let list = draft.finished();
    match kind {
        Kind::Damaged => damage::damage(&mut random, list),
        Kind::Changed => damage::change(&mut random, list),
        _ => list,
    }
}

/// What comes before the walk.
fn plan(kind: Kind) -> fn(&mut Draft) {
    match kind {
        Kind::AllFull => scenarios::all_full,
        Kind::ItemsFull => scenarios::items_full,
        Kind::QueuesFull => scenarios::queues_full,
        Kind::RequestsFull => scenarios::requests_full,
        Kind::TasksFull => scenarios::tasks_full,
        Kind::Wrap => scenarios::wrap,
        Kind::LeftExpired => scenarios::left_expired,
        Kind::Ties => scenarios::ties,
        Kind::TerminalAbend => scenarios::terminal_abend,
        Kind::Retrieve => scenarios::retrieve,
        Kind::Provoke => provoke::provoke_many,
        Kind::Walk | Kind::Damaged | Kind::Changed | Kind::Noise => |_| {},
    }
}

fn start_value(random: &mut Random, kind: Kind) -> u32 {
    match random.below(4) {
        _ if kind == Kind::Wrap => u32::MAX - random.between(0, 60),
        0 => 0,
        1 => u32::MAX - random.between(0, 200),
        2 => random.between(0, u32::MAX),
        _ => random.between(0, 1000),
    }
}
