//! The three parts together: one record, one answer.

use crate::answer::{Action, Answer};
use crate::commands::Command;
use crate::conditions::Condition;
use crate::handlers::Handlers;
use crate::interval::Interval;
use crate::names::{Name, RequestName};
use crate::piece::Piece;
use crate::queues::Queues;

/// All tables of the monitor.
#[derive(Debug)]
pub struct Monitor {
    queues: Queues,
    interval: Interval,
    handlers: Handlers,
}

/// Who issued a record.
#[derive(Clone, Copy, PartialEq, Eq, Debug)]
pub enum Issuer {
    /// "A blank issuer is the system."
    System,
    /// "An active task is named by the request that started it."
    Task(RequestName),
}

/// What a command came to, before the handlers look at it.
struct Outcome {
    condition: Condition,
    number: u32,
    bytes: Piece,
}

impl Monitor {
    /// Fresh, empty tables whose register holds the start value.
    pub fn fresh(register: u32) -> Self {
        Monitor {
            queues: Queues::fresh(),
            interval: Interval::fresh(register),
            handlers: Handlers::fresh(),
        }
    }

    /// Runs one record (without its length field). 33 is tried before 34, and
    /// both before the row; these two "pass by the handlers".
    pub fn record(&mut self, record: &[u8]) -> Answer {
        let Some((name, command)) = Command::parse(record) else {
            return Answer::bare(Condition::Malformed);
        };
        let Some(issuer) = self.issuer(name) else {
            return Answer::bare(Condition::Stranger);
        };
        let outcome = self.obey(issuer, command);
        Answer {
            condition: outcome.condition,
            action: self.act(issuer, outcome.condition),
            number: outcome.number,
            bytes: outcome.bytes,
        }
    }

    /// The issuer of this name; `None` if it is "neither blank nor an active
    /// task".
    pub fn issuer(&self, name: Name<8>) -> Option<Issuer> {
        if name.is_blank() {
            Some(Issuer::System)
        } else if self.interval.is_active(name) {
            Some(Issuer::Task(name))
        } else {
            None
        }
    }

    /// Runs a command by its row. The arms that name an issuer are the rows
    /// marked "sys" and "task".
    fn obey(&mut self, issuer: Issuer, command: Command) -> Outcome {
        use Command::*;
        use Issuer::{System, Task};
        match (issuer, command) {
            (System, DefineProgram(name)) => self.interval.define_program(name).into(),
            (System, DefineTerminal(name)) => self.interval.define_terminal(name).into(),
            (System, Advance { ticks }) => self.interval.advance(ticks).into(),
            (_, Ask) => Outcome::normal(self.interval.register()),
            (System, Dispatch) => self.dispatch(),
            (_, Start(start)) => self.interval.start(&start).into(),
            (_, Cancel(request)) => self.interval.cancel(request).into(),
            (Task(task), Retrieve { room }) => Outcome::given(self.interval.retrieve(task), room),
            (Task(task), Finish) => self.finish(task),
            (_, Append { queue, item }) => self.queues.append(queue, item).into(),
            (_, ReadNext { queue, room }) => Outcome::given(self.queues.read_next(queue), room),
            (_, ReadAt { queue, place, room }) => {
                Outcome::given(self.queues.read_at(queue, place), room)
            }
            (_, Rewrite { queue, place, item }) => self.queues.rewrite(queue, place, item).into(),
            (_, Delete(queue)) => self.queues.delete(queue).into(),
            (Task(task), Handle { condition, label }) => {
                self.handlers.handle(task, condition, label).into()
            }
            (Task(task), Ignore { condition }) => self.handlers.ignore(task, condition).into(),
            (Task(task), Reset { condition }) => self.handlers.reset(task, condition).into(),
            // "any other issuer gets 10, before every condition in the row"
            _ => Outcome::refused(Condition::InvalidRequest),
        }
    }

    /// Command 5. "Bytes: request, program, terminal", a terminal of none as
    /// blanks; on 8 the number "is the length of the expired line".
    fn dispatch(&mut self) -> Outcome {
        let Some((passed_over, request)) = self.interval.dispatch() else {
            return Outcome {
                number: self.interval.line().len() as u32,
                ..Outcome::refused(Condition::NotFound)
            };
        };
        let mut names = [0; 16];
        names[..8].copy_from_slice(&request.name.0);
        names[8..12].copy_from_slice(&request.program.0);
        names[12..].copy_from_slice(&request.terminal.0);
        Outcome {
            bytes: Piece::copy_of(&names).unwrap_or(Piece::EMPTY), // 16 bytes always fit
            ..Outcome::normal(passed_over)
        }
    }

    /// Command 9.
    fn finish(&mut self, task: RequestName) -> Outcome {
        self.remove_task(task);
        Outcome::normal(0)
    }

    /// Lets the handlers decide. "For the system the action is always 0."
    /// "Abend removes the task as finish does, besides anything the command
    /// itself did."
    fn act(&mut self, issuer: Issuer, condition: Condition) -> Action {
        let Issuer::Task(task) = issuer else {
            return Action::GoOn;
        };
        let action = self.handlers.action(task, condition);
        if action == Action::Abend {
            self.remove_task(task);
        }
        action
    }

    /// "Finish removes the task, its settings and its data."
    fn remove_task(&mut self, task: RequestName) {
        self.interval.remove_task(task);
        self.handlers.remove_task(task);
    }

    /// The queues, for looking only.
    pub fn queues(&self) -> &Queues {
        &self.queues
    }

    /// The programs, terminals and requests, for looking only.
    pub fn interval(&self) -> &Interval {
        &self.interval
    }
}

impl Outcome {
    fn normal(number: u32) -> Outcome {
        Outcome { condition: Condition::Normal, number, bytes: Piece::EMPTY }
    }

    /// "On any condition but 0 the number is 0 and there are no bytes"; the
    /// two exceptions are made where they arise.
    fn refused(condition: Condition) -> Outcome {
        Outcome { condition, number: 0, bytes: Piece::EMPTY }
    }

    /// "A reader whose room is shorter than the item gets the first room bytes
    /// and condition 4, the number being the full length."
    fn given(found: Result<Piece, Condition>, room: u8) -> Outcome {
        match found {
            Err(condition) => Outcome::refused(condition),
            Ok(piece) => Outcome {
                condition: if room < piece.length() {
                    Condition::Length
                } else {
                    Condition::Normal
                },
                number: u32::from(piece.length()),
                bytes: piece.cut_to(room),
            },
        }
    }
}

/// A command whose number is its own.
impl From<Result<u32, Condition>> for Outcome {
    fn from(result: Result<u32, Condition>) -> Outcome {
        result.map_or_else(Outcome::refused, Outcome::normal)
    }
}

/// A command whose number is 0.
impl From<Result<(), Condition>> for Outcome {
    fn from(result: Result<(), Condition>) -> Outcome {
        result.map(|()| 0).into()
    }
}
