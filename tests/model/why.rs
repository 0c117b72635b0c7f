//! Why a task is not running (document 02, A2, A4 and A8), written from the paper alone.

use crate::check::well_formed;
use crate::table::{State, Table};

/// The one reason why a task is not running, or that it is.
#[derive(Clone, Copy, PartialEq, Eq, Debug)]
pub enum Reason {
    Dormant,
    Active,
    /// Behind so many ready tasks.
    Ready(u8),
    /// Until this time.
    Paused(u64),
    Due(u64),
    /// The flags that are missing.
    AnyOf(u32),
    AllOf(u32),
    /// A request's place in the pool, from 1, and its task.
    Start(u8, u8),
    EndOfRequest(u8, u8),
    /// The task whose run is waited for.
    EndOfRun(u8),
    /// A subprogram, and its holder.
    Subprogram(u8, u8),
    /// A message from this task, or from any, 0.
    Message(u8),
}

impl Reason {
    /// The task that is waited on.
    pub fn on(self) -> Option<u8> {
        match self {
            Reason::Start(_, task)
            | Reason::EndOfRequest(_, task)
            | Reason::EndOfRun(task)
            | Reason::Subprogram(_, task) => Some(task),
            _ => None,
        }
    }
}

/// What the tool answers: a number and V, the path of tasks with their reasons, and how many of its last are a ring.
#[derive(Clone, PartialEq, Eq, Debug, Default)]
pub struct Why {
    pub number: u8,
    pub v: bool,
    pub path: Vec<(u8, Reason)>,
    pub ring: usize,
}

/// Follows the task until one waits on nobody else, or a task is met again.
pub fn why(table: &Table, task: u8) -> Why {
    if !well_formed(table) {
        return Why { number: 1, ..Why::default() };
    }
    if task == 0 || task > table.count {
        return Why { number: 6, v: true, ..Why::default() };
    }
    let mut told = Why::default();
    let mut next = Some(task);
    while let Some(task) = next {
        if let Some(met) = told.path.iter().position(|(known, _)| *known == task) {
            told.ring = told.path.len() - met;
            break;
        }
        let reason = reason(table, task);
        told.path.push((task, reason));
        next = reason.on();
    }
    told
}

/// Why one task of a well-formed table is not running.
fn reason(table: &Table, task: u8) -> Reason {
    match table.task(task).state {
        State::Dormant => Reason::Dormant,
        State::Ready => match table.queue.iter().position(|ready| *ready == task) {
            Some(0) => Reason::Active,
            place => Reason::Ready(place.expect("a ready task stands in the queue") as u8),
        },
        State::Paused(time) => Reason::Paused(time),
        State::Due(time) => Reason::Due(time),
        State::WaitAny(mask) => Reason::AnyOf(mask & !table.flags),
        State::WaitAll(mask) => Reason::AllOf(mask & !table.flags),
        State::WaitStart | State::WaitEnd => named(table, task),
        State::WaitSub(number) => Reason::Subprogram(number, table.subs[number as usize].holder),
        State::WaitMessage(sender) => Reason::Message(sender),
    }
}

/// The request or the run that names a waiter.
fn named(table: &Table, waiter: u8) -> Reason {
    for (place, request) in (1..).zip(&table.pool) {
        if request.start_waiter == waiter {
            return Reason::Start(place, request.task);
        }
        if request.end_waiter == waiter {
            return Reason::EndOfRequest(place, request.task);
        }
    }
    let run = table.tasks.iter().position(|task| task.end_waiter == waiter);
    Reason::EndOfRun(run.expect("a waiter is named") as u8 + 1)
}

/// The answer in words, a line each.
pub fn told(why: &Why, clock: u64) -> String {
    if why.number != 0 {
        return format!("refused {}\n", why.number);
    }
    let mut text = format!("clock {clock} ms\n");
    for (task, reason) in &why.path {
        text += &format!("task {task} {}\n", in_words(*reason));
    }
    if why.ring > 0 {
        let members = why.path[why.path.len() - why.ring..].iter();
        text += &format!("ring{}\n", listed(members.map(|(task, _)| u32::from(*task))));
    }
    text
}

fn in_words(reason: Reason) -> String {
    match reason {
        Reason::Dormant => "is dormant".to_string(),
        Reason::Active => "is active".to_string(),
        Reason::Ready(ahead) => format!("is ready, behind {ahead}"),
        Reason::Paused(time) => format!("is paused until {time} ms"),
        Reason::Due(time) => format!("is due to restart at {time} ms"),
        Reason::AnyOf(flags) => format!("waits for any of its flags, missing{}", set_in(flags)),
        Reason::AllOf(flags) => format!("waits for all of its flags, missing{}", set_in(flags)),
        Reason::Start(place, task) => format!("waits for request {place} to begin, on task {task}"),
        Reason::EndOfRequest(place, task) => format!("waits for the end of request {place}'s run, on task {task}"),
        Reason::EndOfRun(task) => format!("waits for the end of task {task}'s run"),
        Reason::Message(0) => "waits for a message from any task".to_string(),
        Reason::Message(sender) => format!("waits for a message from task {sender}"),
        Reason::Subprogram(number, task) => format!("waits for subprogram {number}, held by task {task}"),
    }
}

fn set_in(flags: u32) -> String {
    listed((0..32).filter(|flag| flags >> flag & 1 == 1))
}

/// The numbers, each after a space.
fn listed(numbers: impl Iterator<Item = u32>) -> String {
    numbers.map(|number| format!(" {number}")).collect()
}

/// A fault that can be planted in the answer, to see that the trial finds it.
#[derive(Clone, Copy, PartialEq, Eq, Debug)]
pub enum Fault {
    RingMissed,
    LeadInRing,
    SetFlagMissing,
    HolderUnasked,
}

/// The faults, by name.
pub const FAULTS: [(&str, Fault); 4] = [
    ("ring-missed", Fault::RingMissed),
    ("lead-in-ring", Fault::LeadInRing),
    ("set-flag-missing", Fault::SetFlagMissing),
    ("holder-unasked", Fault::HolderUnasked),
];

impl Fault {
    /// The answer of a tool that has the fault.
    pub fn why(self, table: &Table, task: u8) -> Why {
        let mut why = why(table, task);
        match self {
            Fault::RingMissed => why.ring = 0,
            Fault::LeadInRing if why.ring > 0 => why.ring = why.path.len(),
            Fault::LeadInRing => {}
            Fault::HolderUnasked => {
                let waits = |(_, reason): &(u8, Reason)| matches!(reason, Reason::Subprogram(..));
                if let Some(at) = why.path.iter().position(waits) {
                    why.path.truncate(at + 1);
                    why.ring = 0;
                }
            }
            Fault::SetFlagMissing => {
                for (task, reason) in &mut why.path {
                    if let (Reason::AllOf(missing), State::WaitAll(mask)) = (reason, table.task(*task).state) {
                        *missing = mask;
                    }
                }
            }
        }
        why
    }
}
