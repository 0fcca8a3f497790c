//! A random walk: commands by weight, operands that mostly mean something.

use super::draft::Draft;
use super::provoke::{settle, Manner};
use crate::bounds::{ADVANCE, INTERVAL};
use crate::build::{self, Record};
use crate::conditions::Condition;
use crate::names::{Name, ProgramName, QueueName, RequestName, TerminalName};

/// How often each of the commands 1..17 is chosen.
type Weights = [u32; 17];

const TEMPERS: [Weights; 4] = [
    // Some of everything.
    [6, 4, 10, 3, 12, 14, 4, 8, 4, 12, 10, 8, 6, 3, 4, 4, 3],
    // Mostly queues.
    [2, 1, 2, 1, 4, 4, 1, 2, 1, 30, 18, 14, 10, 6, 2, 2, 1],
    // Mostly requests.
    [8, 5, 16, 4, 22, 26, 6, 14, 8, 2, 2, 1, 1, 1, 2, 2, 1],
    // Mostly handlers, and commands that meet conditions.
    [3, 2, 4, 1, 12, 12, 4, 8, 3, 4, 8, 8, 6, 3, 12, 10, 8],
];

/// Walks until the list is full, or stops somewhere before.
pub fn walk(draft: &mut Draft) {
    let weights = draft.random.pick(&TEMPERS).unwrap_or(TEMPERS[0]);
    let keep = if draft.random.chance(70) { 0 } else { draft.random.below(4000) };
    // Records of the walk have 100 bytes at most.
    while draft.room() > keep + 100 {
        step(draft, &weights);
    }
    if draft.random.chance(30) {
        fill_up(draft);
    }
}

/// Makes the list as long as it may be, with a malformed ask if need be.
fn fill_up(draft: &mut Draft) {
    let least = Record::raw(4, &[]).bytes().len() + 2;
    if let Some(more) = draft.room().checked_sub(least) {
        draft.put(Record::raw(4, &vec![0; more]));
    }
}

fn step(draft: &mut Draft, weights: &Weights) {
    let chosen = weighted(draft, weights);
    let command = needed(draft, chosen).unwrap_or(chosen);
    let issuer = issuer(draft, command);
    let mut record = operands(draft, command);
    if draft.random.chance(2) {
        record = spoilt(draft, &record);
    }
    let answer = draft.put(record.by(issuer));
    let normal = answer.is_some_and(|answer| answer.condition == Condition::Normal);
    if command == 5 && normal && draft.random.chance(70) {
        settle_newest(draft);
    }
}

/// What has to come first for the chosen command to mean something: without a
/// program nothing can be started, and a task's command needs a task.
fn needed(draft: &mut Draft, chosen: u8) -> Option<u8> {
    let interval = draft.interval();
    let of_task = matches!(chosen, 8 | 9 | 15..=17);
    let command = if interval.programs().names().is_empty() {
        1
    } else if !of_task || !interval.active().is_empty() {
        return None;
    } else if interval.line().is_empty() {
        6
    } else {
        5
    };
    draft.random.chance(85).then_some(command)
}

fn weighted(draft: &mut Draft, weights: &Weights) -> u8 {
    let mut left = draft.random.below(weights.iter().sum::<u32>() as usize) as u32;
    for (command, &weight) in (1..).zip(weights) {
        if left < weight {
            return command;
        }
        left -= weight;
    }
    4
}

/// A new task without settings would not live long.
fn settle_newest(draft: &mut Draft) {
    if let Some(&task) = draft.tasks().last() {
        let manner = draft.random.pick(&[Manner::GoOn, Manner::Label]);
        settle(draft, task, 0, manner.unwrap_or(Manner::GoOn));
    }
}

/// Mostly the right kind of issuer.
fn issuer(draft: &mut Draft, command: u8) -> Name<8> {
    if draft.random.chance(3) {
        return request(draft); // mostly no active task: a stranger
    }
    let tasks_of_a_hundred = match command {
        1 | 2 | 3 | 5 => 4,
        8 | 9 | 15..=17 => 96,
        _ => 60,
    };
    let tasks = draft.tasks();
    let task = draft.random.pick(&tasks);
    let by_task = draft.random.chance(tasks_of_a_hundred);
    task.filter(|_| by_task).unwrap_or(Name::BLANK)
}

fn operands(draft: &mut Draft, command: u8) -> Record {
    match command {
        1 => build::define_program(from_pool(draft, |d| d.pools.programs.clone())),
        2 => build::define_terminal(from_pool(draft, |d| d.pools.terminals.clone())),
        3 => build::advance(ticks(draft)),
        4 => build::ask(),
        5 => build::dispatch(),
        6 => start(draft),
        7 => build::cancel(request(draft)),
        8 => build::retrieve(room(draft)),
        9 => build::finish(),
        15 => build::handle(condition(draft), label(draft)),
        16 => build::ignore(condition(draft)),
        17 => build::reset(condition(draft)),
        _ => queue_operands(draft, command),
    }
}

fn queue_operands(draft: &mut Draft, command: u8) -> Record {
    let queue = queue(draft);
    match command {
        10 => build::append(queue, &item(draft)),
        11 => build::read_next(queue, room(draft)),
        12 => build::read_at(queue, place(draft, queue), room(draft)),
        13 => build::rewrite(queue, place(draft, queue), &item(draft)),
        _ => build::delete(queue),
    }
}

fn start(draft: &mut Draft) -> Record {
    let request = request(draft);
    let program = program(draft);
    let terminal = terminal(draft);
    let interval = interval(draft);
    let data = data(draft);
    build::start(request, program, terminal, interval, &data)
}

/// The command with operands of another size, or another command byte.
fn spoilt(draft: &mut Draft, record: &Record) -> Record {
    let (command, operands) = record.parts();
    match draft.random.below(3) {
        0 => Record::raw(command, &[operands, &[0]].concat()),
        1 => Record::raw(command, &operands[..draft.random.below(operands.len())]),
        _ => Record::raw(draft.random.between(18, 256) as u8, operands),
    }
}

fn from_pool<const N: usize>(draft: &mut Draft, pool: fn(&Draft) -> Vec<Name<N>>) -> Name<N> {
    let pool = pool(draft);
    let blank = draft.random.chance(3);
    let picked = draft.random.pick(&pool).filter(|_| !blank);
    picked.unwrap_or(Name::BLANK)
}

fn queue(draft: &mut Draft) -> QueueName {
    let known: Vec<_> = draft.queues().names().collect();
    let use_known = draft.random.chance(60);
    let known = draft.random.pick(&known).filter(|_| use_known);
    known.unwrap_or_else(|| from_pool(draft, |d| d.pools.queues.clone()))
}

fn request(draft: &mut Draft) -> RequestName {
    from_pool(draft, |d| d.pools.requests.clone())
}

fn program(draft: &mut Draft) -> ProgramName {
    let known = draft.interval().programs().names().to_vec();
    let use_known = draft.random.chance(92);
    let known = draft.random.pick(&known).filter(|_| use_known);
    known.unwrap_or_else(|| from_pool(draft, |d| d.pools.programs.clone()))
}

fn terminal(draft: &mut Draft) -> TerminalName {
    let known = draft.interval().terminals().names().to_vec();
    let known = draft.random.pick(&known);
    match draft.random.below(20) {
        0 => from_pool(draft, |d| d.pools.terminals.clone()),
        1..=9 => Name::BLANK,
        _ => known.unwrap_or(Name::BLANK),
    }
}

fn interval(draft: &mut Draft) -> u32 {
    match draft.random.below(20) {
        0..=5 => 0,
        6..=14 => draft.random.between(1, 30),
        15 => draft.random.between(1, INTERVAL),
        16 => INTERVAL,
        17 if draft.random.chance(50) => INTERVAL + 1,
        18 if draft.random.chance(30) => u32::MAX,
        _ => 10,
    }
}

fn ticks(draft: &mut Draft) -> u32 {
    match draft.random.below(20) {
        0..=7 => draft.random.between(0, 20),
        8..=14 => to_next_due(draft),
        15 => draft.random.between(0, ADVANCE),
        16 => ADVANCE,
        17 if draft.random.chance(50) => ADVANCE + 1,
        18 if draft.random.chance(30) => u32::MAX,
        _ => 1,
    }
}

/// Exactly as far as the first request falls due, or one tick short of it.
fn to_next_due(draft: &mut Draft) -> u32 {
    let interval = draft.interval();
    let next = interval.waiting().iter().map(|request| request.due).min();
    let ticks = next.map_or(0, |due| (due - interval.clock()) as u32);
    ticks.saturating_sub(u32::from(draft.random.chance(25)))
}

fn place(draft: &mut Draft, queue: QueueName) -> u16 {
    let (count, _) = draft.queues().state(queue).unwrap_or((0, 0));
    match draft.random.below(16) {
        0 => 0,
        1 => count as u16 + 1,
        2 => draft.random.between(0, 65535) as u16,
        _ => draft.random.between(1, count.max(1) as u32) as u16,
    }
}

fn room(draft: &mut Draft) -> u8 {
    match draft.random.below(8) {
        0..=3 => draft.random.between(64, 255) as u8,
        4 => 0,
        5 => 63,
        _ => draft.random.between(0, 9) as u8,
    }
}

fn item(draft: &mut Draft) -> Vec<u8> {
    let length = match draft.random.below(32) {
        0 => 0,
        1 => 65,
        2 | 3 => 64,
        4 => draft.random.below(64) + 1,
        _ => draft.random.below(6) + 1,
    };
    draft.random.bytes(length)
}

fn data(draft: &mut Draft) -> Vec<u8> {
    if draft.random.chance(35) {
        Vec::new()
    } else {
        item(draft)
    }
}

fn condition(draft: &mut Draft) -> u8 {
    match draft.random.below(20) {
        0 => 11,
        1 => draft.random.between(0, 255) as u8,
        2..=6 => 0,
        _ => draft.random.between(1, 10) as u8,
    }
}

fn label(draft: &mut Draft) -> u16 {
    match draft.random.below(16) {
        0 => 0,
        1 => 65535,
        _ => draft.random.between(1, 65535) as u16,
    }
}
