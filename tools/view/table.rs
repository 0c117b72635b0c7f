//! A table as a person reads it, from its image.

use crate::image::{read, Message, Request, State, Sub, Table, Task};
use crate::places::LENGTH;
use crate::rules::{broken, RULES};
use crate::words::{flags_of, grouped, listed, text, time, Names};

/// The image in words, and whether its table is well formed; else why it cannot be read at all.
pub fn table(image: &[u8], names: &Names) -> Result<(String, bool), String> {
    if image.len() != LENGTH {
        return Err(format!("an image has {LENGTH} bytes, and this has {}.", grouped(image.len() as u64)));
    }
    let table = read(image);
    let found = broken(&table);
    let mut text = String::new();
    if found.is_empty() {
        text += "The table is well formed.\n";
    } else {
        text += "The table is NOT well formed; every step would be refused with number 1.\n";
    }
    for one in &found {
        text += &format!("byte {}: {}; but {}.\n", one.at, one.why, RULES[one.rule]);
    }
    text += &head(&table, names);
    for (i, request) in table.requests().iter().enumerate() {
        text += &entry(&format!("request {}", i + 1), &asked(request, names));
    }
    for (n, sub) in (0..).zip(&table.subs).filter(|(_, sub)| sub.holder != 0 || sub.waiting != 0) {
        text += &entry(&format!("sub {n}"), &shared(n, sub, names));
    }
    for (i, message) in table.waiting().iter().enumerate() {
        text += &entry(&format!("message {}", i + 1), &sent(message, names));
    }
    for k in table.numbers() {
        if let Some(task) = table.task(k) {
            text += &entry(&format!("task {k}"), &in_words(&table, k, task, names));
        }
    }
    Ok((text, found.is_empty()))
}

fn entry(name: &str, words: &str) -> String {
    format!("{name:<11} {words}\n")
}

fn none_or(list: Vec<String>, none: &str) -> String {
    if list.is_empty() {
        none.to_string()
    } else {
        listed(list.into_iter())
    }
}

fn head(table: &Table, names: &Names) -> String {
    let flags = flags_of(table.flags).into_iter().map(|n| names.flag(n)).collect();
    let alarms = (0..).zip(&table.alarms).filter(|(_, at)| **at != 0);
    let alarms = alarms.map(|(n, at)| format!("{} at {}", names.flag(n), until(table, *at))).collect();
    let line = table.line().iter().map(|k| names.task(*k)).collect();
    entry("clock", &format!("{} ({} ms), granule {} ms", time(table.clock), grouped(table.clock), table.granule))
        + &entry("flags set", &none_or(flags, "none"))
        + &entry("alarms", &none_or(alarms, "none is running"))
        + &entry("queue", &none_or(line, "nobody is ready: the executive is idle"))
        + &entry("requests", &format!("{} of 32 places are taken", table.queued))
}

/// A time, and how far ahead of the clock it is.
fn until(table: &Table, at: u64) -> String {
    match at.checked_sub(table.clock) {
        Some(ahead) => format!("{} (in {})", time(at), time(ahead)),
        None => format!("{} (past)", time(at)),
    }
}

fn asked(request: &Request, names: &Names) -> String {
    let mut words = format!(
        "a run of {} at priority {}, argument {}",
        names.task(request.target),
        request.priority,
        request.argument
    );
    if request.start_waiter != 0 {
        words += &format!("; {} waits for its start", names.task(request.start_waiter));
    }
    if request.end_waiter != 0 {
        words += &format!("; {} waits for its end", names.task(request.end_waiter));
    }
    words
}

/// A subprogram that is in use: its holder, and those that wait for it.
fn shared(number: u8, sub: &Sub, names: &Names) -> String {
    let holder = if sub.holder == 0 { "free".to_string() } else { format!("held by {}", names.task(sub.holder)) };
    let waits = sub.line().iter().map(|k| names.task(*k)).collect();
    let name = names.of_sub(number).map_or(String::new(), |name| format!("{name}, "));
    format!("{name}{holder}; waiting: {}", none_or(waits, "nobody"))
}

/// A message that waits.
fn sent(message: &Message, names: &Names) -> String {
    let (to, sender) = (names.task(message.to), names.task(message.sender));
    format!("for {to} from {sender}, sent at priority {}: {}", message.priority, text(message.text))
}

fn in_words(table: &Table, k: u8, task: &Task, names: &Names) -> String {
    let name = names.of_task(k).map_or(String::new(), |name| format!("{name}, "));
    let mut words = format!("{name}own priority {}: {}", task.own, state(table, k, task.state, names));
    if task.state != State::Dormant {
        words += &format!("; run at priority {}, argument {}", task.priority, task.argument);
        words += &format!(", scheduled for {}", time(task.start));
    }
    if task.end_waiter != 0 {
        words += &format!("; {} waits for its end", names.task(task.end_waiter));
    }
    if !task.mail.is_none() {
        words += &format!("; has the message {} from {}", text(task.mail.text), names.task(task.mail.sender));
    }
    words
}

/// What a task is doing.
fn state(table: &Table, k: u8, state: State, names: &Names) -> String {
    match state {
        State::Dormant => "dormant".to_string(),
        State::Ready if table.active() == k => "active".to_string(),
        State::Ready => {
            let ahead = table.line().iter().take_while(|other| **other != k);
            format!("ready behind {}", listed(ahead.map(|other| names.task(*other))))
        }
        State::Paused(at) => format!("paused until {}", until(table, at)),
        State::Due(at) => format!("due to restart at {}", until(table, at)),
        State::Any(mask) if mask.count_ones() > 1 => format!("waits for any of {}", names.flags(mask)),
        State::All(mask) if mask.count_ones() > 1 => format!("waits for all of {}", names.flags(mask)),
        State::Any(mask) | State::All(mask) => format!("waits for {}", names.flags(mask)),
        State::AwaitStart => awaited(table, k, "start", names),
        State::AwaitEnd => awaited(table, k, "end", names),
        State::AwaitSub(number) => match table.sub(number).map_or(0, |sub| sub.holder) {
            0 => format!("waits for {}, and nobody holds it", names.sub(number)),
            holder => format!("waits for {}, held by {}", names.sub(number), names.task(holder)),
        },
        State::AwaitMessage(sender) => format!("waits for a message from {}", names.sender(sender)),
        State::Stray(byte) => format!("in no state: its byte is {byte}"),
    }
}

/// Whose start or end a task waits for: of a run, or of the run that a queued request begins.
fn awaited(table: &Table, k: u8, what: &str, names: &Names) -> String {
    let run = (1..).zip(&table.tasks).find(|(_, task)| task.end_waiter == k).map(|(other, _)| other);
    let asked = table.requests().iter().position(|request| request.start_waiter == k || request.end_waiter == k);
    match (run, asked) {
        (Some(other), _) if what == "end" => format!("waits for the end of {}'s run", names.task(other)),
        (_, Some(i)) => {
            let target = names.task(table.requests()[i].target);
            format!("waits for the {what} of {target}'s run by request {}", i + 1)
        }
        _ => format!("waits for a run's {what}, and nobody names it"),
    }
}
