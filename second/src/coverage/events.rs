//! Named events: corners that a single answer does not show.

use crate::answer::{Action, Answer};
use crate::bounds::{ADVANCE, ITEMS, PROGRAMS, QUEUES, REQUESTS};
use crate::commands::Command;
use crate::conditions::Condition;
use crate::interval::{Start, Task};
use crate::list::Misframed;
use crate::monitor::Monitor;
use crate::names::{Name, QueueName, RequestName, TerminalName};
use std::collections::{BTreeMap, BTreeSet};
use std::fmt;

/// Something that came about while a list ran.
#[derive(Clone, Copy, PartialEq, Eq, PartialOrd, Ord, Debug)]
#[allow(missing_docs)] // `TEXTS` says what each one is
pub enum Event {
    ItemsFull,
    QueuesFull,
    RequestsFull,
    ProgramsFull,
    TerminalsFull,
    TasksFull,
    AllFullAtOnce,
    RegisterWrapped,
    DueBeyondWrap,
    TieInDue,
    LeftExpired,
    PassedOver,
    TerminalHeldAgain,
    EmptyQueueMade,
    BothNoSpaceReasons,
    FreedSlotReused,
    QueueNameAgain,
    RequestNameAgain,
    OwnDataWhole,
    OwnDataCut,
    OtherDataWhole,
    OtherDataCut,
    AbendAfterOtherDataCut,
    ReadCut,
    WaitingCancelled,
    ExpiredCancelled,
    ActiveNotCancelled,
    RemovedTaskIsStranger,
    RequestNotActiveIsStranger,
    Refused(Misframed),
}

use Event::*;

const TEXTS: [(Event, &str); 35] = [
    (ItemsFull, "128 items in use"),
    (QueuesFull, "16 queues exist"),
    (RequestsFull, "32 requests known"),
    (ProgramsFull, "16 programs known"),
    (TerminalsFull, "8 terminals known"),
    (TasksFull, "16 tasks active"),
    (AllFullAtOnce, "all five tables full at once"),
    (RegisterWrapped, "register wrapped"),
    (DueBeyondWrap, "start accepted with its due beyond the wrap"),
    (TieInDue, "newly expired requests with equal due"),
    (LeftExpired, "dispatched after five advances of 1,000,000,000 in the line"),
    (PassedOver, "dispatch passed over others"),
    (TerminalHeldAgain, "terminal of an abended task dispatched again"),
    (EmptyQueueMade, "append at 128 items made an empty queue"),
    (BothNoSpaceReasons, "append refused by both reasons of no space"),
    (FreedSlotReused, "append took a slot freed before"),
    (QueueNameAgain, "name of a deleted queue used again"),
    (RequestNameAgain, "name of a removed request used again"),
    (OwnDataWhole, "retrieve of own data"),
    (OwnDataCut, "retrieve of own data, cut by the room"),
    (OtherDataWhole, "retrieve of another's data"),
    (OtherDataCut, "retrieve of another's data, cut by the room"),
    (AbendAfterOtherDataCut, "abend on another's data cut by the room"),
    (ReadCut, "read cut by the room"),
    (WaitingCancelled, "waiting request cancelled"),
    (ExpiredCancelled, "expired request cancelled"),
    (ActiveNotCancelled, "cancel of an active request refused"),
    (RemovedTaskIsStranger, "command of a removed task refused"),
    (RequestNotActiveIsStranger, "command of a request not yet active refused"),
    (Refused(Misframed::TotalTooShort), "list refused: fewer than 9 bytes"),
    (Refused(Misframed::TotalTooLong), "list refused: more than 4,096 bytes"),
    (Refused(Misframed::LengthField), "list refused: length field"),
    (Refused(Misframed::Version), "list refused: version"),
    (Refused(Misframed::RecordTooShort), "list refused: record length below 9"),
    (Refused(Misframed::RecordPastEnd), "list refused: record past the end"),
];

impl Event {
    /// Every event, in order.
    pub fn all() -> impl Iterator<Item = Event> {
        TEXTS.iter().map(|&(event, _)| event)
    }
}

impl fmt::Display for Event {
    fn fmt(&self, f: &mut fmt::Formatter) -> fmt::Result {
        let found = TEXTS.iter().find(|(event, _)| event == self);
        f.write_str(found.map_or("", |(_, text)| text))
    }
}

/// The tables as they stood before a record, as far as events need them.
#[derive(Default)]
struct Before {
    clock: u64,
    items: usize,
    queues: BTreeSet<QueueName>,
    requests: BTreeSet<RequestName>,
    line: Vec<RequestName>,
    active: Vec<Task>,
}

/// What one list has done so far.
#[derive(Default)]
pub struct History {
    events: BTreeSet<Event>,
    before: Before,
    /// The most items in use at any time.
    peak: usize,
    gone_queues: BTreeSet<QueueName>,
    gone_requests: BTreeSet<RequestName>,
    /// Advances of 1,000,000,000 that each request in the line stood through.
    stood_through: BTreeMap<RequestName, u32>,
    /// Terminals that abended tasks held and no task has held since.
    left_by_abend: BTreeSet<TerminalName>,
}

impl History {
    /// Notes the tables before a record.
    pub fn look_before(&mut self, monitor: &Monitor) {
        let interval = monitor.interval();
        self.before = Before {
            clock: interval.clock(),
            items: monitor.queues().items_used(),
            queues: monitor.queues().names().collect(),
            requests: interval.requests().map(|r| r.name).collect(),
            line: interval.line().iter().map(|r| r.name).collect(),
            active: interval.active().to_vec(),
        };
    }

    /// Notes what the record did to them.
    pub fn look_after(&mut self, monitor: &Monitor, record: &[u8], answer: &Answer) {
        let Some((issuer, command)) = Command::parse(record) else {
            return;
        };
        match command {
            Command::Advance { ticks } => self.advanced(monitor, ticks, answer),
            Command::Dispatch => self.dispatched(monitor, answer),
            Command::Start(start) => self.started(monitor, &start, answer),
            Command::Cancel(request) => self.cancelled(request, answer),
            Command::Retrieve { .. } => self.retrieved(monitor, answer),
            Command::Append { queue, .. } => self.appended(monitor, queue, answer),
            Command::ReadNext { .. } | Command::ReadAt { .. } => {
                self.note(ReadCut, answer.condition == Condition::Length);
            }
            _ => {}
        }
        self.strangers(issuer, answer);
        self.abends(issuer, answer);
        self.full_tables(monitor);
        self.remember(monitor);
    }

    /// The events of the list.
    pub fn into_events(self) -> BTreeSet<Event> {
        self.events
    }

    fn note(&mut self, event: Event, happened: bool) {
        if happened {
            self.events.insert(event);
        }
    }

    fn advanced(&mut self, monitor: &Monitor, ticks: u32, answer: &Answer) {
        if answer.condition != Condition::Normal {
            return;
        }
        let interval = monitor.interval();
        self.note(RegisterWrapped, interval.clock() >> 32 != self.before.clock >> 32);
        let newly_expired = &interval.line()[self.before.line.len()..];
        let tie = newly_expired.windows(2).any(|two| two[0].due == two[1].due);
        self.note(TieInDue, tie);
        if ticks == ADVANCE {
            for &request in &self.before.line {
                *self.stood_through.entry(request).or_default() += 1;
            }
        }
    }

    fn dispatched(&mut self, monitor: &Monitor, answer: &Answer) {
        let newest = monitor.interval().active().last();
        let (Condition::Normal, Some(task)) = (answer.condition, newest) else {
            return;
        };
        let advances = self.stood_through.get(&task.request.name).copied();
        self.note(LeftExpired, advances >= Some(5));
        self.note(PassedOver, answer.number > 0);
        let again = self.left_by_abend.remove(&task.request.terminal);
        self.note(TerminalHeldAgain, again);
    }

    fn started(&mut self, monitor: &Monitor, start: &Start, answer: &Answer) {
        if answer.condition != Condition::Normal {
            return;
        }
        let clock = monitor.interval().clock();
        let due = clock + u64::from(start.interval);
        self.note(DueBeyondWrap, due >> 32 != clock >> 32);
        let again = self.gone_requests.contains(&start.request);
        self.note(RequestNameAgain, again);
    }

    fn cancelled(&mut self, request: RequestName, answer: &Answer) {
        let removed = answer.condition == Condition::Normal;
        let refused = answer.condition == Condition::NotFound;
        let expired = self.before.line.contains(&request);
        let active = self.before.active.iter().any(|t| t.request.name == request);
        self.note(ExpiredCancelled, removed && expired);
        self.note(WaitingCancelled, removed && !expired);
        self.note(ActiveNotCancelled, refused && active);
    }

    fn retrieved(&mut self, monitor: &Monitor, answer: &Answer) {
        let others = monitor.interval().line().len() < self.before.line.len();
        let whole = answer.condition == Condition::Normal;
        let cut = answer.condition == Condition::Length;
        self.note(OwnDataWhole, whole && !others);
        self.note(OwnDataCut, cut && !others);
        self.note(OtherDataWhole, whole && others);
        self.note(OtherDataCut, cut && others);
        let abend = answer.action == Action::Abend;
        self.note(AbendAfterOtherDataCut, cut && others && abend);
    }

    fn appended(&mut self, monitor: &Monitor, queue: QueueName, answer: &Answer) {
        let unknown = !self.before.queues.contains(&queue);
        let full = self.before.items == ITEMS;
        let taken = answer.condition == Condition::Normal;
        let no_space = answer.condition == Condition::NoSpace;
        // Slots are taken lowest first, so those below the peak have all been
        // in use before.
        self.note(FreedSlotReused, taken && self.before.items < self.peak);
        let made = unknown && monitor.queues().state(queue).is_some();
        self.note(QueueNameAgain, made && self.gone_queues.contains(&queue));
        self.note(EmptyQueueMade, no_space && made);
        let both = no_space && full && unknown && self.before.queues.len() == QUEUES;
        self.note(BothNoSpaceReasons, both);
    }

    fn strangers(&mut self, issuer: Name<8>, answer: &Answer) {
        if answer.condition == Condition::Stranger {
            let known = self.before.requests.contains(&issuer);
            let removed = self.gone_requests.contains(&issuer);
            self.note(RequestNotActiveIsStranger, known);
            self.note(RemovedTaskIsStranger, removed && !known);
        }
    }

    fn abends(&mut self, issuer: Name<8>, answer: &Answer) {
        if answer.action == Action::Abend {
            let mut tasks = self.before.active.iter();
            let terminal = tasks
                .find(|task| task.request.name == issuer)
                .map(|task| task.request.terminal)
                .filter(|terminal| !terminal.is_blank());
            self.left_by_abend.extend(terminal);
        }
    }

    fn full_tables(&mut self, monitor: &Monitor) {
        let interval = monitor.interval();
        let full = [
            (ItemsFull, monitor.queues().items_used() == ITEMS),
            (QueuesFull, monitor.queues().count() == QUEUES),
            (RequestsFull, interval.count() == REQUESTS),
            (ProgramsFull, interval.programs().is_full()),
            (TerminalsFull, interval.terminals().is_full()),
        ];
        for (event, happened) in full {
            self.note(event, happened);
        }
        self.note(TasksFull, interval.active().len() == PROGRAMS);
        self.note(AllFullAtOnce, full.iter().all(|&(_, happened)| happened));
    }

    fn remember(&mut self, monitor: &Monitor) {
        let queues: BTreeSet<_> = monitor.queues().names().collect();
        let requests: BTreeSet<_> = monitor.interval().requests().map(|r| r.name).collect();
        let line = monitor.interval().line();
        self.gone_queues.extend(self.before.queues.difference(&queues));
        self.gone_requests.extend(self.before.requests.difference(&requests));
        self.stood_through.retain(|name, _| line.iter().any(|request| request.name == *name));
        self.peak = self.peak.max(monitor.queues().items_used());
    }
}
