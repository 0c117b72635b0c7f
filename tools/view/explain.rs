//! A run in words for those who serve a board: a line a step, when, who calls what, what came of it, who is active.

use crate::calls::call;
use crate::image::{read, State, Table};
use crate::reasons::reason;
use crate::records::length;
use crate::run::{Run, Step};
use crate::words::{grouped, listed, text, time, Names};

/// The whole run: how it begins, its steps, and how it ends.
pub fn explain(run: &Run, names: &Names) -> String {
    let fresh = read(&run.fresh);
    let tasks = fresh.numbers().map(|k| {
        let started = if fresh.state(k) == State::Ready { "started" } else { "dormant" };
        let own = fresh.task(k).map_or(0, |task| task.own);
        format!("{} (own priority {own}, {started})", names.task(k))
    });
    let mut text = format!("The granule is {} ms. The tasks: {}.\n", fresh.granule, listed(tasks));
    text += &format!("At the start {}.\n\n", active(&fresh, names));
    for ((before, step), n) in run.steps().iter().zip(1..) {
        text += &format!("{n:>5}  {:>9}  {}\n", time(step.table.clock), sentence(before, step, names));
    }
    text + "\n" + &ending(run)
}

fn active(table: &Table, names: &Names) -> String {
    match table.active() {
        0 => "nobody is active".to_string(),
        k => format!("{} is active", names.task(k)),
    }
}

/// A step: who calls what, what came of it, and who is active now.
fn sentence(before: &Table, step: &Step, names: &Names) -> String {
    let caller = before.active();
    let asked = match (step.record[0], caller) {
        (0x80, _) => "tick".to_string(),
        (_, 0) => format!("a caller {}", call(&step.record, 0, names)),
        _ => {
            let start = before.task(caller).map_or(0, |task| task.start);
            format!("{} {}", names.task(caller), call(&step.record, start, names))
        }
    };
    let mut parts = if step.number == 0 {
        [came(before, step, names), moves(before, step, names)].concat()
    } else {
        vec![format!("REFUSED with {}: {}", step.number, reason(before, &step.record, step.number, names))]
    };
    parts.push(active(&step.table, names));
    format!("{asked}: {}", parts.join("; "))
}

/// What came of an accepted step, by its kind, but for who departs and enters.
fn came(before: &Table, step: &Step, names: &Names) -> Vec<String> {
    let body = &step.record[1..];
    match step.record[0] {
        0x00 => ended(before, names),
        0x01 => restarted(before, step, names),
        0x02 if step.z => vec!["for no time, so nothing changes".to_string()],
        0x03 if step.z => vec![format!("{} is not paused, so nothing changes", names.task(body[0]))],
        0x04 if step.z => vec![format!("{} is busy, so it is not started", names.task(body[1]))],
        0x05 if step.z => {
            vec![format!("{} is busy, so this is queued as request {}", names.task(body[1]), step.table.queued)]
        }
        0x06 if step.table.active() == before.active() => vec!["it is free, and now held".to_string()],
        0x06 => held(before, body[0], names),
        0x07 => handed(step, body[0], names),
        0x09 => flagged(step.c, body[0] != 2 && step.z),
        0x0A if step.z => vec!["that is so already, so there is no wait".to_string()],
        0x0B if body[1] == 0 => flagged(step.c, step.z),
        0x0B => {
            let already = if step.c { ", and it is set already" } else { "" };
            vec![format!("its alarm is set for {}{already}", time(step.table.alarms[usize::from(body[2])]))]
        }
        0x14 => posted(before, step, body[0], names),
        0x15 => received(step, names),
        0x80 => {
            let risen = step.table.flags & !before.flags;
            let risen = if risen == 0 { None } else { Some(format!("set by an alarm: {}", names.flags(risen))) };
            risen.into_iter().collect()
        }
        _ => Vec::new(),
    }
}

/// Of an ended run: the request that begins.
fn ended(before: &Table, names: &Names) -> Vec<String> {
    let caller = before.active();
    let begun = before.requests().iter().find(|request| request.target == caller);
    let words = begun.map(|request| {
        let (who, priority, argument) = (names.task(caller), request.priority, request.argument);
        format!("the earliest request for {who} begins, at priority {priority}, argument {argument}")
    });
    words.into_iter().collect()
}

/// Of a subprogram that is wanted: who holds it.
fn held(before: &Table, number: u8, names: &Names) -> Vec<String> {
    let holder = before.sub(number).map_or(0, |sub| sub.holder);
    vec![format!("{} holds it", names.task(holder))]
}

/// Of a subprogram that was left: that it is free, or who holds it now.
fn handed(step: &Step, number: u8, names: &Names) -> Vec<String> {
    match step.table.sub(number).map_or(0, |sub| sub.holder) {
        0 => vec!["it is free now".to_string()],
        next => vec![format!("{} holds it now", names.task(next))],
    }
}

/// Of a message that was sent: that its receiver has it, or where it waits.
fn posted(before: &Table, step: &Step, to: u8, names: &Names) -> Vec<String> {
    if step.table.sent == before.sent {
        return vec![format!("{} has it in its entry", names.task(to))];
    }
    let place = before.waiting().iter().zip(step.table.waiting()).position(|(old, new)| old != new);
    let number = place.unwrap_or(before.waiting().len()) + 1;
    vec![format!("{} does not wait for it, so it waits as message {number}", names.task(to))]
}

/// Of a receive: the message that was handed out, or that there is none.
fn received(step: &Step, names: &Names) -> Vec<String> {
    match step.handed.sender {
        0 => vec!["no message fits".to_string()],
        sender => vec![format!("{} from {} is handed out", text(step.handed.text), names.task(sender))],
    }
}

/// Of a restart: that it is at once and why, and what it passed over.
fn restarted(before: &Table, step: &Step, names: &Names) -> Vec<String> {
    let caller = before.active();
    let mut words = Vec::new();
    if step.skipped > 0 {
        let (missed, are) = if step.skipped == 1 { ("start", "is") } else { ("starts", "are") };
        words.push(format!("{} missed {missed} {are} passed over", grouped(step.skipped)));
    }
    if let (State::Ready, Some(task)) = (step.table.state(caller), step.table.task(caller)) {
        words.push(match step.v {
            true => format!("there is no such unit, so {} restarts at once (V)", names.task(caller)),
            false => format!("{} is not ahead, so {} restarts at once", time(task.start), names.task(caller)),
        });
    }
    words
}

fn flagged(was_set: bool, nothing: bool) -> Vec<String> {
    let was = if was_set { "it was set" } else { "it was not set" };
    let and = if nothing { ", so nothing changes" } else { "" };
    vec![format!("{was}{and}")]
}

/// That the caller departed, and to what; and who entered, each with why: by the times that came, then by number.
fn moves(before: &Table, step: &Step, names: &Names) -> Vec<String> {
    let after = &step.table;
    let changed = after.numbers().filter(|k| before.state(*k) != after.state(*k));
    let (mut entered, left): (Vec<u8>, Vec<u8>) = changed.partition(|k| after.state(*k) == State::Ready);
    entered.sort_by_key(|k| match before.state(*k) {
        State::Paused(at) | State::Due(at) => at,
        _ => u64::MAX,
    });
    let left = left.into_iter().map(|k| format!("{} {}", names.task(k), departure(after.state(k))));
    left.chain(entered.into_iter().map(|k| format!("{} {}", names.task(k), entry(before, after, k)))).collect()
}

/// What the caller departed to.
fn departure(state: State) -> String {
    match state {
        State::Dormant => "is dormant".to_string(),
        State::Paused(at) => format!("departs until {}", time(at)),
        State::Due(at) => format!("is due at {}", time(at)),
        _ => "departs".to_string(),
    }
}

/// Why a task enters the ready queue, from what it did before.
fn entry(before: &Table, after: &Table, k: u8) -> String {
    match before.state(k) {
        State::Dormant => "starts".to_string(),
        State::Paused(at) if at > after.clock => "enters, its pause cut short".to_string(),
        State::Paused(_) => "enters, its pause being over".to_string(),
        State::Due(at) => format!("restarts, as scheduled for {}", time(at)),
        State::Any(_) | State::All(_) => "enters, its flags being set".to_string(),
        State::AwaitStart => "enters, the start having come".to_string(),
        State::AwaitEnd => "enters, the end having come".to_string(),
        State::AwaitSub(_) => "enters, the subprogram being its own".to_string(),
        State::AwaitMessage(_) => "enters, the message having come".to_string(),
        State::Ready | State::Stray(_) => "enters".to_string(),
    }
}

/// How the run ends.
fn ending(run: &Run) -> String {
    let steps = match run.steps.len() {
        1 => "1 step".to_string(),
        many => format!("{many} steps"),
    };
    match &run.stop {
        None => format!("The end, after {steps}.\n"),
        Some((stop, rest)) => {
            let kind = rest[0];
            let why = match length(kind) {
                Some(long) => format!("a {kind:02X} has {long} bytes, and only {} are left", rest.len()),
                None => format!("{kind:02X} is no call and no tick"),
            };
            format!("Stopped with {stop} after {steps}: {why}.\n")
        }
    }
}
