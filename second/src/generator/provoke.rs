//! Conditions met by a task on purpose, with each of the three actions.

use super::draft::{name, Draft};
use crate::answer::Action;
use crate::bounds::{INTERVAL, PIECE};
use crate::build::{self, Record};
use crate::coverage::table::task_conditions;
use crate::names::{Name, ProgramName, QueueName, RequestName};

/// What the task is to do when the condition arises.
#[derive(Clone, Copy, PartialEq, Eq, Debug)]
pub enum Manner {
    /// Ignore it.
    GoOn,
    /// Go to a label.
    Label,
    /// Abend.
    Abend,
}

/// The three, abend last, since it ends the task.
pub const MANNERS: [Manner; 3] = [Manner::GoOn, Manner::Label, Manner::Abend];

const QUEUE: QueueName = Name(*b"PROVOKED");
const PROGRAM: ProgramName = Name(*b"PROV");

/// Sets a task up for a condition, by its own setting or by the general one.
/// Condition 0 stands for all.
pub fn settle(draft: &mut Draft, task: RequestName, condition: u8, manner: Manner) {
    let label = draft.random.between(1, 65535) as u16;
    let general = manner == Manner::Abend || draft.random.chance(40);
    let condition = if general && condition != 0 {
        draft.put(build::reset(condition).by(task));
        0
    } else {
        condition
    };
    let record = match manner {
        Manner::GoOn => build::ignore(condition),
        Manner::Label => build::handle(condition, label),
        Manner::Abend => build::reset(condition),
    };
    draft.put(record.by(task));
}

/// Provokes conditions at random until there is no more room for it.
pub fn provoke_many(draft: &mut Draft) {
    draft.put(build::define_program(PROGRAM));
    draft.put(build::append(QUEUE, b"item"));
    let conditions: Vec<_> = task_conditions().collect();
    let mut number = 0;
    while draft.room() > 300 {
        let Some((command, condition)) = draft.random.pick(&conditions) else {
            return;
        };
        number += 1;
        provoke(draft, name(b'V', number), command, condition);
    }
}

/// A task of its own for one condition.
fn provoke(draft: &mut Draft, request: RequestName, command: u8, condition: u8) {
    let manner = draft.random.pick(&MANNERS).unwrap_or(Manner::Abend);
    draft.put(build::start(request, PROGRAM, Name::BLANK, 0, b"data"));
    let Some(task) = draft.dispatch() else {
        return;
    };
    settle(draft, task, condition, manner);
    let Some(record) = meeting(draft, task, command, condition) else {
        return finish(draft, task);
    };
    let answer = draft.put(record.by(task));
    if answer.is_some_and(|answer| answer.action != Action::Abend) {
        finish(draft, task);
    }
}

fn finish(draft: &mut Draft, task: RequestName) {
    draft.put(build::finish().by(task));
}

/// A record that meets the condition from a task that has not retrieved;
/// `None` where full tables are needed, which the other plans see to.
fn meeting(draft: &mut Draft, task: RequestName, command: u8, condition: u8) -> Option<Record> {
    let record = match (command, condition) {
        (1, _) => build::define_program(name(b'W', 1)),
        (2, _) => build::define_terminal(name(b'W', 1)),
        (3, _) => build::advance(draft.random.between(0, 9)),
        (5, _) => build::dispatch(),
        (6, _) => return meeting_start(draft, task, condition),
        (7, 8) => build::cancel(task),
        (7, _) => build::cancel(Name::BLANK),
        (8, 9) => {
            draft.put(build::retrieve(64).by(task));
            build::retrieve(64)
        }
        (8, _) => build::retrieve(draft.random.between(0, 3) as u8),
        (15, _) if draft.random.chance(50) => build::handle(1, 0),
        (15, _) => build::handle(11, 1),
        (16, _) => build::ignore(11),
        (17, _) => build::reset(255),
        _ => return meeting_queue(draft, command, condition),
    };
    Some(record)
}

fn meeting_start(draft: &mut Draft, task: RequestName, condition: u8) -> Option<Record> {
    let new = name(b'N', 1);
    let none = Name::BLANK;
    Some(match condition {
        10 if draft.random.chance(50) => build::start(Name::BLANK, PROGRAM, none, 0, b""),
        10 => build::start(new, PROGRAM, none, INTERVAL + 1, b""),
        4 => build::start(new, PROGRAM, none, 0, &[0; PIECE + 1]),
        5 => build::start(new, name(b'N', 1), none, 0, b""),
        6 => build::start(new, PROGRAM, name(b'N', 1), 0, b""),
        7 => build::start(task, PROGRAM, none, 0, b""),
        _ => return None,
    })
}

fn meeting_queue(draft: &mut Draft, command: u8, condition: u8) -> Option<Record> {
    let queue = match condition {
        10 => Name::BLANK,
        2 => name(b'N', 1),
        _ => QUEUE,
    };
    let (count, pointer) = draft.queues().state(QUEUE)?;
    let short = draft.random.between(0, 3) as u8;
    let beyond = draft.random.pick(&[0, count as u16 + 1, 65535])?;
    let wrong: &[u8] = draft.random.pick(&[&[][..], &[1; PIECE + 1]])?;
    Some(match (command, condition) {
        (10 | 13, 1) => return None,
        (10, 4) => build::append(queue, wrong),
        (10, _) => build::append(queue, b"item"),
        (13, 4) => build::rewrite(queue, 1, wrong),
        (13, 3) => build::rewrite(queue, beyond, b"ITEM"),
        (13, _) => build::rewrite(queue, 1, b"ITEM"),
        (11, 3) => {
            draft.put(build::read_at(queue, count as u16, 64));
            build::read_next(queue, short)
        }
        (11, 4) if pointer == count => {
            draft.put(build::append(queue, b"item"));
            build::read_next(queue, short)
        }
        (11, _) => build::read_next(queue, short),
        (12, 3) => build::read_at(queue, beyond, short),
        (12, _) => build::read_at(queue, 1, short),
        _ => build::delete(queue),
    })
}
