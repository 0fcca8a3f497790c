//! Planned beginnings of lists, one for each corner that a walk would miss.

use super::draft::{name, Draft};
use super::provoke::{settle, MANNERS};
use crate::bounds::{ADVANCE, ITEMS, PROGRAMS, QUEUES, REQUESTS, TERMINALS};
use crate::build::{self, Record};
use crate::names::{Name, ProgramName, QueueName, RequestName, TerminalName};

const NONE: TerminalName = Name::BLANK;
/// Held by the tasks that the plans run; no other request names it.
const PROGRAM: ProgramName = Name(*b"PLAN");
const TASK: RequestName = Name(*b"THE TASK");

fn queue(number: usize) -> QueueName {
    name(b'q', number)
}

fn request(number: usize) -> RequestName {
    name(b'r', number)
}

fn program(number: usize) -> ProgramName {
    name(b'p', number)
}

fn terminal(number: usize) -> TerminalName {
    name(b't', number)
}

/// All five tables full at once, then one more of each.
pub fn all_full(draft: &mut Draft) {
    draft.put_all((0..PROGRAMS).map(|n| build::define_program(program(n))));
    draft.put_all((0..TERMINALS).map(|n| build::define_terminal(terminal(n))));
    for number in 0..REQUESTS {
        let program = program(draft.random.below(PROGRAMS));
        let terminal = draft.random.below(TERMINALS + 1);
        let terminal = if terminal < TERMINALS { name(b't', terminal) } else { NONE };
        let interval = draft.random.between(0, 2);
        let start = build::start(request(number), program, terminal, interval, b"");
        draft.put(start);
    }
    fill_items(draft, QUEUES);
    draft.put(build::define_program(program(PROGRAMS)));
    draft.put(build::define_terminal(terminal(TERMINALS)));
    draft.put(build::start(request(REQUESTS), program(0), NONE, 0, b""));
    draft.put(build::append(queue(0), b"x"));
    draft.put(build::append(queue(QUEUES), b"x"));
}

/// Appends to the first `queues` of the plan's queues, each at least once,
/// until every slot is in use.
fn fill_items(draft: &mut Draft, queues: usize) {
    draft.put_all((0..queues).map(|n| build::append(queue(n), &[n as u8])));
    while draft.queues().items_used() < ITEMS {
        let queue = queue(draft.random.below(queues));
        let item = draft.random.bytes(1);
        if draft.put(build::append(queue, &item)).is_none() {
            return;
        }
    }
}

/// A task without data, active from the start.
fn run_task(draft: &mut Draft) {
    draft.put(build::define_program(PROGRAM));
    draft.put(build::start(TASK, PROGRAM, NONE, 0, b""));
    draft.put(build::dispatch());
}

/// The same record from the system, and from the task with every action.
fn refused_to_all(draft: &mut Draft, condition: u8, record: &Record) {
    draft.put(record.clone());
    for manner in MANNERS {
        settle(draft, TASK, condition, manner);
        draft.put(record.clone().by(TASK));
    }
}

/// 128 items; the refused append that makes an empty queue; freed slots.
pub fn items_full(draft: &mut Draft) {
    run_task(draft);
    let queues = draft.random.between(1, 8) as usize;
    fill_items(draft, queues);
    draft.put(build::append(queue(queues), b"x"));
    draft.put(build::read_next(queue(queues), 64));
    refused_to_all(draft, 1, &build::append(queue(0), b"x"));
    draft.put(build::delete(queue(queues)));
    let freed = queue(draft.random.below(queues));
    draft.put(build::delete(freed));
    draft.put(build::append(freed, b"again"));
    draft.put(build::read_at(freed, 1, 64));
}

/// 16 queues, one more, and both reasons of no space at once.
pub fn queues_full(draft: &mut Draft) {
    run_task(draft);
    draft.put_all((0..QUEUES).map(|n| build::append(queue(n), b"x")));
    refused_to_all(draft, 1, &build::append(queue(QUEUES), b"x"));
    if draft.random.chance(60) {
        fill_items(draft, QUEUES);
        draft.put(build::append(queue(QUEUES), b"x"));
        draft.put(build::read_next(queue(QUEUES), 64));
    }
    let freed = queue(draft.random.below(QUEUES));
    draft.put(build::delete(freed));
    draft.put(build::append(queue(QUEUES), b"x"));
    draft.put(build::append(freed, b"x"));
}

/// 32 requests in all three phases, one more, and names used again.
pub fn requests_full(draft: &mut Draft) {
    run_task(draft);
    draft.put(build::define_program(program(0)));
    for number in 1..REQUESTS {
        let interval = draft.random.between(0, 3);
        draft.put(build::start(request(number), program(0), NONE, interval, b"d"));
    }
    draft.put(build::dispatch());
    refused_to_all(draft, 1, &build::start(request(0), program(0), NONE, 0, b""));
    // The abend freed a place: it serves again, and so does the task's name.
    draft.put(build::start(TASK, PROGRAM, NONE, 0, b""));
    for _ in 0..4 {
        let again = request(draft.random.between(1, 31) as usize);
        draft.put(build::cancel(again));
        draft.put(build::start(again, program(0), NONE, 2, b"new"));
    }
    draft.put(build::advance(3));
}

/// A task for every program, each with settings of its own.
pub fn tasks_full(draft: &mut Draft) {
    draft.put_all((0..PROGRAMS).map(|n| build::define_program(program(n))));
    draft.put_all((0..TERMINALS).map(|n| build::define_terminal(terminal(n))));
    for number in 0..PROGRAMS {
        // Every terminal once, and none for the others.
        let terminal = if number < TERMINALS { terminal(number) } else { NONE };
        draft.put(build::start(request(number), program(number), terminal, 0, b"own"));
    }
    while let Some(task) = draft.dispatch() {
        let condition = draft.random.between(0, 10) as u8;
        let manner = draft.random.pick(&MANNERS).unwrap_or(MANNERS[0]);
        settle(draft, task, condition, manner);
    }
}

/// Requests due before, at and behind the wrap of the register.
pub fn wrap(draft: &mut Draft) {
    draft.put_all((0..4).map(|n| build::define_program(program(n))));
    for number in 0..8 {
        let interval = draft.random.between(0, 120);
        let program = program(draft.random.below(4));
        draft.put(build::start(request(number), program, NONE, interval, b"wrap"));
    }
    for _ in 0..12 {
        let ticks = draft.random.between(0, 20);
        draft.put(build::advance(ticks));
        draft.put(build::ask());
        if let Some(task) = draft.dispatch() {
            draft.put(build::finish().by(task));
        }
    }
}

/// Requests left in the line while the register goes round, others behind.
pub fn left_expired(draft: &mut Draft) {
    draft.put_all((0..3).map(|n| build::define_program(program(n))));
    let left = draft.random.between(1, 4) as usize;
    for number in (0..left).rev() {
        let interval = draft.random.between(0, 5);
        let start = build::start(request(number), program(number % 3), NONE, interval, b"left");
        draft.put(start);
    }
    draft.put(build::advance(5));
    for number in 0..draft.random.between(5, 9) as usize {
        draft.put(build::advance(ADVANCE));
        let interval = draft.random.between(0, 2);
        let later = build::start(request(10 + number), program(0), NONE, interval, b"");
        draft.put(later);
    }
    draft.put(build::ask());
    for _ in 0..left + 3 {
        if let Some(task) = draft.dispatch() {
            draft.put(build::retrieve(64).by(task));
            draft.put(build::finish().by(task));
        }
    }
}

/// Starts at different clocks that fall due at the same tick, in an order of
/// acceptance that is not the order of names.
pub fn ties(draft: &mut Draft) {
    draft.put(build::define_program(PROGRAM));
    let mut to_go = draft.random.between(10, 40);
    for number in 0..8 {
        let request = request((number * 5 + 3) % 8);
        let apart = u32::from(draft.random.chance(20));
        let start = build::start(request, PROGRAM, NONE, to_go + apart, b"tie");
        draft.put(start);
        let ticks = draft.random.between(0, 1);
        draft.put(build::advance(ticks));
        to_go -= ticks;
    }
    draft.put(build::advance(to_go + 1));
    for _ in 0..8 {
        if let Some(task) = draft.dispatch() {
            draft.put(build::finish().by(task));
        }
    }
}

/// Tasks that hold a terminal and abend, and others that wait for it.
pub fn terminal_abend(draft: &mut Draft) {
    draft.put_all((0..4).map(|n| build::define_program(program(n))));
    draft.put_all((0..2).map(|n| build::define_terminal(terminal(n))));
    for number in 0..8 {
        let terminal = terminal(draft.random.below(2));
        draft.put(build::start(request(number), program(number % 4), terminal, 0, b""));
    }
    for _ in 0..6 {
        while draft.dispatch().is_some() {}
        let tasks = draft.tasks();
        if let Some(task) = draft.random.pick(&tasks) {
            draft.put(build::read_next(queue(0), 64).by(task));
            draft.put(build::ask().by(task));
        }
    }
}

/// One program with and without a terminal: data of the task's own and of
/// others in the line, whole, cut and none.
pub fn retrieve(draft: &mut Draft) {
    draft.put_all((0..2).map(|n| build::define_program(program(n))));
    draft.put(build::define_terminal(terminal(0)));
    for number in 0..14 {
        let program = program(usize::from(draft.random.chance(25)));
        let terminal = draft.random.pick(&[NONE, NONE, terminal(0)]).unwrap_or(NONE);
        let length = draft.random.pick(&[0, 1, 3, 64]).unwrap_or(0);
        let data = draft.random.bytes(length);
        draft.put(build::start(request(number), program, terminal, 0, &data));
    }
    for _ in 0..6 {
        let Some(task) = draft.dispatch() else {
            return;
        };
        if draft.random.chance(60) {
            draft.put(build::ignore(4).by(task));
        }
        for _ in 0..4 {
            let room = draft.random.pick(&[0, 2, 63, 64, 255]).unwrap_or(64);
            draft.put(build::retrieve(room).by(task));
        }
        draft.put(build::finish().by(task));
    }
}
