//! What lists reach: the answers by command, issuer, condition and action,
//! and the named events.

pub mod events;
pub mod table;

use crate::answer::Answer;
use crate::conditions::Condition;
use crate::generator::Kind;
use crate::list::{frame, Framed};
use crate::monitor::{Issuer, Monitor};
use crate::names::Name;
use events::{Event, History};
use std::collections::{BTreeMap, BTreeSet};
use std::fmt;
use table::{By, Reach};

/// Counts of what the lists watched so far have reached.
#[derive(Default, Debug)]
pub struct Coverage {
    /// How often each answer was given.
    pub reached: BTreeMap<Reach, u64>,
    /// In how many lists each event came about.
    pub events: BTreeMap<Event, u64>,
    /// How many lists of each kind there were.
    pub kinds: BTreeMap<Kind, u64>,
}

impl Coverage {
    /// Runs a list and counts what it reaches.
    pub fn watch(&mut self, kind: Kind, list: &[u8]) {
        *self.kinds.entry(kind).or_default() += 1;
        let events = match frame(list) {
            Ok(framed) => self.watch_records(framed),
            Err(misframed) => BTreeSet::from([Event::Refused(misframed)]),
        };
        for event in events {
            *self.events.entry(event).or_default() += 1;
        }
    }

    fn watch_records(&mut self, framed: Framed) -> BTreeSet<Event> {
        let mut monitor = Monitor::fresh(framed.start);
        let mut history = History::default();
        for record in framed.records() {
            let by = issued_by(&monitor, record);
            history.look_before(&monitor);
            let answer = monitor.record(record);
            history.look_after(&monitor, record, &answer);
            let reach = reach_of(record, by, &answer);
            *self.reached.entry(reach).or_default() += 1;
        }
        history.into_events()
    }
}

/// Who issued a record, as the tables before it have it.
fn issued_by(monitor: &Monitor, record: &[u8]) -> By {
    let name = record.get(1..9).and_then(|name| name.try_into().ok());
    match name.and_then(|name| monitor.issuer(Name(name))) {
        Some(Issuer::System) => By::System,
        Some(Issuer::Task(_)) => By::Task,
        None => By::Stranger,
    }
}

fn reach_of(record: &[u8], by: By, answer: &Answer) -> Reach {
    let command = record.first().copied().unwrap_or(0);
    let malformed = answer.condition == Condition::Malformed;
    Reach {
        command: if table::is_command(command) { command } else { 0 },
        by: if malformed { By::Anyone } else { by },
        condition: answer.condition.number(),
        action: answer.action.number(),
    }
}

/// The counts, one a line; what was never reached has the count 0.
impl fmt::Display for Coverage {
    fn fmt(&self, f: &mut fmt::Formatter) -> fmt::Result {
        writeln!(f, "answers: command issuer condition action count")?;
        let table: BTreeSet<Reach> = table::reachable().collect();
        let reached: BTreeSet<Reach> = self.reached.keys().copied().collect();
        for reach in table.union(&reached) {
            let count = self.reached.get(reach).copied().unwrap_or(0);
            let outside = if table.contains(reach) { "" } else { " outside the table" };
            writeln!(f, "{reach} {count}{outside}")?;
        }
        writeln!(f, "\nevents: lists, event")?;
        for event in Event::all() {
            let count = self.events.get(&event).copied().unwrap_or(0);
            writeln!(f, "{count} {event}")?;
        }
        writeln!(f, "\nkinds of lists: lists, kind")?;
        for (kind, count) in &self.kinds {
            writeln!(f, "{count} {kind:?}")?;
        }
        Ok(())
    }
}
