//! A list in the making, with the monitor that has run it so far: knowing the
//! tables, a plan can choose operands that mean something.

use crate::answer::Answer;
use crate::bounds::LIST;
use crate::build::{self, List, Record};
use crate::conditions::Condition;
use crate::interval::Interval;
use crate::monitor::Monitor;
use crate::names::{Name, ProgramName, QueueName, RequestName, TerminalName};
use crate::queues::Queues;
use crate::random::Random;

/// See the module.
pub struct Draft {
    /// Where choices come from.
    pub random: Random,
    list: List,
    monitor: Monitor,
    /// Names that the list draws on; some more than the tables hold.
    pub pools: Pools,
}

/// Names to choose from.
pub struct Pools {
    /// For queues.
    pub queues: Vec<QueueName>,
    /// For requests.
    pub requests: Vec<RequestName>,
    /// For programs.
    pub programs: Vec<ProgramName>,
    /// For terminals.
    pub terminals: Vec<TerminalName>,
}

impl Draft {
    /// A list without records.
    pub fn starting_at(start: u32, mut random: Random) -> Draft {
        let few = random.chance(60);
        let pools = Pools {
            queues: names(&mut random, b'Q', if few { 5 } else { 20 }),
            requests: names(&mut random, b'R', if few { 12 } else { 40 }),
            programs: names(&mut random, b'P', if few { 4 } else { 18 }),
            terminals: names(&mut random, b'T', if few { 3 } else { 10 }),
        };
        Draft { random, list: List::starting_at(start), monitor: Monitor::fresh(start), pools }
    }

    /// Writes a record and runs it; does nothing where the list has no room.
    pub fn put(&mut self, record: Record) -> Option<Answer> {
        let bytes = record.bytes();
        if bytes.len() + 2 > self.room() {
            return None;
        }
        self.list.add(&record);
        Some(self.monitor.record(&bytes))
    }

    /// Writes several records of the system.
    pub fn put_all(&mut self, records: impl IntoIterator<Item = Record>) {
        for record in records {
            self.put(record);
        }
    }

    /// Writes a dispatch; the task that is active with it.
    pub fn dispatch(&mut self) -> Option<RequestName> {
        let answer = self.put(build::dispatch())?;
        let newest = self.interval().active().last()?.request.name;
        (answer.condition == Condition::Normal).then_some(newest)
    }

    /// Bytes left in the list.
    pub fn room(&self) -> usize {
        *LIST.end() - self.list.length()
    }

    /// The requests and what they name, as the list leaves them so far.
    pub fn interval(&self) -> &Interval {
        self.monitor.interval()
    }

    /// The queues as the list leaves them so far.
    pub fn queues(&self) -> &Queues {
        self.monitor.queues()
    }

    /// The names of the active tasks.
    pub fn tasks(&self) -> Vec<RequestName> {
        let active = self.interval().active().iter();
        active.map(|task| task.request.name).collect()
    }

    /// The list's bytes.
    pub fn finished(self) -> Vec<u8> {
        self.list.finished()
    }
}

/// A plain name: a letter, a number, and spaces behind.
pub fn name<const N: usize>(letter: u8, number: usize) -> Name<N> {
    let mut bytes = [b' '; N];
    bytes[0] = letter;
    bytes[1] = b'0' + (number / 10 % 10) as u8;
    bytes[2] = b'0' + (number % 10) as u8;
    Name(bytes)
}

/// Different plain names, and now and then an odd one among them.
fn names<const N: usize>(random: &mut Random, letter: u8, count: usize) -> Vec<Name<N>> {
    let plain = (0..count).map(|number| name(letter, number));
    plain.map(|name| odd_or(random, name)).collect()
}

/// "Bytes are compared as they stand": any bytes are a name, even zeros, or
/// a single letter somewhere among spaces.
fn odd_or<const N: usize>(random: &mut Random, plain: Name<N>) -> Name<N> {
    let mut odd = Name::BLANK;
    match random.below(12) {
        0 => odd.0.fill_with(|| random.next_u64() as u8),
        1 => odd.0.fill(0),
        2 => odd.0[random.below(N)] = b'A' + random.below(3) as u8,
        _ => odd = plain,
    }
    odd
}
