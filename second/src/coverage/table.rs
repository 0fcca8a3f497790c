//! The table of all answers reachable through a list, derived from document
//! 01's table of commands.

use crate::bounds::HIGHEST_COMMAND;
use std::fmt;

/// Who issued a command.
#[derive(Clone, Copy, PartialEq, Eq, PartialOrd, Ord, Debug)]
pub enum By {
    /// The system.
    System,
    /// An active task.
    Task,
    /// Neither of them.
    Stranger,
    /// Nobody looked: 33 comes before the issuer.
    Anyone,
}

/// A kind of answer. The triple of document 01's numbers (command, condition,
/// action), split by issuer since action 0 has two reasons: the system's, and
/// a task's condition 0 or ignored condition.
#[derive(Clone, Copy, PartialEq, Eq, PartialOrd, Ord, Debug)]
pub struct Reach {
    /// The command, or 0 for all that are not 1..17.
    pub command: u8,
    /// Who issued it.
    pub by: By,
    /// The condition's number.
    pub condition: u8,
    /// The action's number.
    pub action: u8,
}

impl Reach {
    /// The answer without its issuer.
    pub fn triple(&self) -> (u8, u8, u8) {
        (self.command, self.condition, self.action)
    }
}

impl fmt::Display for Reach {
    fn fmt(&self, f: &mut fmt::Formatter) -> fmt::Result {
        let by = match self.by {
            By::System => "system",
            By::Task => "task",
            By::Stranger => "stranger",
            By::Anyone => "anyone",
        };
        let Reach { command, condition, action, .. } = self;
        write!(f, "{command} {by} {condition} {action}")
    }
}

/// A command, the conditions that the system can get, and those a task can.
type Row = (u8, &'static [u8], &'static [u8]);

/// The wrong kind of issuer gets 10 and nothing else. The other conditions
/// are those of document 01's row; each of them can be met, since the tables
/// can be filled and emptied from either side within one list.
const ROWS: [Row; HIGHEST_COMMAND as usize] = [
    (1, &[0, 10, 7, 1], &[10]),
    (2, &[0, 10, 7, 1], &[10]),
    (3, &[0, 10], &[10]),
    // Ask has no conditions and is open to both.
    (4, &[0], &[0]),
    // The row of dispatch has no 10, so the system never gets it.
    (5, &[0, 8], &[10]),
    (6, &[0, 10, 4, 5, 6, 7, 1], &[0, 10, 4, 5, 6, 7, 1]),
    (7, &[0, 10, 8], &[0, 10, 8]),
    // The rows of retrieve and finish have no 10, so a task never gets it.
    (8, &[10], &[0, 9, 4]),
    (9, &[10], &[0]),
    (10, &[0, 10, 4, 1], &[0, 10, 4, 1]),
    (11, &[0, 10, 2, 3, 4], &[0, 10, 2, 3, 4]),
    (12, &[0, 10, 2, 3, 4], &[0, 10, 2, 3, 4]),
    (13, &[0, 10, 4, 2, 3], &[0, 10, 4, 2, 3]),
    (14, &[0, 10, 2], &[0, 10, 2]),
    (15, &[10], &[0, 10]),
    (16, &[10], &[0, 10]),
    (17, &[10], &[0, 10]),
];

/// Whether the byte is one of the commands 1..17.
pub fn is_command(command: u8) -> bool {
    (1..=HIGHEST_COMMAND).contains(&command)
}

/// Every answer that a list can get. What is left out cannot arise:
///
/// - 32, 35 and 36 are no answers of a list: its tables are sound, and a
///   refused list has no answers;
/// - a condition outside the command's row;
/// - an action other than 0 for the system, with condition 0, with 33 and
///   with 34.
pub fn reachable() -> impl Iterator<Item = Reach> {
    ROWS.iter().flat_map(row_answers).chain(malformed()).chain(strangers())
}

/// The conditions other than 0 that a task can get, by command.
pub fn task_conditions() -> impl Iterator<Item = (u8, u8)> {
    let rows = ROWS.iter();
    let pairs = rows.flat_map(|&(command, _, task)| task.iter().map(move |&c| (command, c)));
    pairs.filter(|&(_, condition)| condition != 0)
}

fn row_answers(&(command, system, task): &Row) -> impl Iterator<Item = Reach> {
    let answer = move |by, condition, action| Reach { command, by, condition, action };
    // "For the system the action is always 0."
    let system = system.iter().map(move |&c| answer(By::System, c, 0));
    // Every condition of 1..10 can be ignored, handled or left to abend.
    let task = task.iter().flat_map(move |&c| {
        let actions = if c == 0 { 0..=0 } else { 0..=2 };
        actions.map(move |action| answer(By::Task, c, action))
    });
    system.chain(task)
}

/// 33 for a command outside 1..17, and for each command with operands of a
/// wrong size: even those with a "rest" need the operands before it.
fn malformed() -> impl Iterator<Item = Reach> {
    (0..=HIGHEST_COMMAND).map(|command| Reach { command, by: By::Anyone, condition: 33, action: 0 })
}

/// 34 for each command; outside 1..17 comes 33 first.
fn strangers() -> impl Iterator<Item = Reach> {
    (1..=HIGHEST_COMMAND).map(|command| Reach {
        command,
        by: By::Stranger,
        condition: 34,
        action: 0,
    })
}
