//! The faults that the last board had, and more of their kind, beside the model: its own step, and then what such a
//! board did otherwise. They show that the comparisons find them.

use crate::steps::step_unchecked;
use crate::table::{Answer, Message, State, Table, MESSAGES};

#[derive(Clone, Copy, PartialEq, Eq, Debug)]
pub enum Fault {
    EqualInFront,
    DriftingCatchUp,
    CancelWakesDue,
    RememberedFlag,
    LostStart,
    StartTwice,
    WakeByNumber,
    FlagsFirst,
    LampLags,
    FirstComeFirstServed,
    LeaverHolds,
    HolderSleeps,
    MessagesByArrival,
    AnySenderWakes,
    FullForReceiver,
    MailSurvives,
}

/// The faults that a listing shows, by name.
pub const FAULTS: [(&str, Fault); 13] = [
    ("equal-in-front", Fault::EqualInFront),
    ("drifting-catch-up", Fault::DriftingCatchUp),
    ("cancel-wakes-due", Fault::CancelWakesDue),
    ("remembered-flag", Fault::RememberedFlag),
    ("lost-start", Fault::LostStart),
    ("start-twice", Fault::StartTwice),
    ("wake-by-number", Fault::WakeByNumber),
    ("flags-first", Fault::FlagsFirst),
    ("first-come-first-served", Fault::FirstComeFirstServed),
    ("leaver-holds", Fault::LeaverHolds),
    ("holder-sleeps", Fault::HolderSleeps),
    ("any-sender-wakes", Fault::AnySenderWakes),
    ("full-for-receiver", Fault::FullForReceiver),
];

/// Those that only a table's image or an answer's text shows.
pub const OF_IMAGES: [(&str, Fault); 3] = [
    ("lamp-lags", Fault::LampLags),
    ("messages-by-arrival", Fault::MessagesByArrival),
    ("mail-survives", Fault::MailSurvives),
];

impl Fault {
    /// A step as the last board took it. The table is not checked: the fault may have left one that is not well formed.
    pub fn step(self, table: &mut Table, record: &[u8]) -> Answer {
        let before = *table;
        let mut answer = step_unchecked(table, record);
        match (self, answer.number, record.first()) {
            (Fault::HolderSleeps, 15, Some(0x00)) => answer = holder_sleeps(&before, table, record),
            (Fault::FullForReceiver, 0, Some(0x14)) if before.sent as usize == MESSAGES => {
                *table = before;
                answer = Answer { number: 16, ..Answer::default() };
                answer.name_active(table);
            }
            _ => {}
        }
        if answer.number != 0 {
            return answer;
        }
        match self {
            Fault::EqualInFront => equal_in_front(&before, table, record),
            Fault::DriftingCatchUp => drifting_catch_up(&before, table, record),
            Fault::CancelWakesDue => cancel_wakes_due(&before, table, record, &mut answer),
            Fault::RememberedFlag => remembered_flag(&before, table, record),
            Fault::LostStart => lost_start(&before, table, record),
            Fault::StartTwice => start_twice(&before, table, record),
            Fault::WakeByNumber => wake_by(&before, table, record, |number, _| number),
            Fault::FlagsFirst => wake_by(&before, table, record, |number, state| (state.time(), number)),
            Fault::FirstComeFirstServed => first_come_first_served(&before, table, record),
            Fault::LeaverHolds => leaver_holds(&before, table, record),
            Fault::MessagesByArrival => messages_by_arrival(&before, table, record),
            Fault::AnySenderWakes => any_sender_wakes(&before, table, record),
            Fault::MailSurvives => mail_survives(&before, table, record),
            Fault::LampLags | Fault::HolderSleeps | Fault::FullForReceiver => {}
        }
        // the word of the ready levels is that of the table then, or of the table before
        table.levels = if self == Fault::LampLags { before.levels } else { table.ready_levels() };
        answer.name_active(table);
        answer
    }
}

/// The kinds by which the caller's run ends, so that it stands in the queue anew if it stands there at all.
fn ends(record: &[u8]) -> bool {
    matches!(record[0], 0x00 | 0x01)
}

/// Tasks that enter go in front of their equals, the last of them first.
fn equal_in_front(before: &Table, after: &mut Table, record: &[u8]) {
    let kept = &before.queue[usize::from(ends(record))..before.queued as usize];
    let queue = after.queue[..after.queued as usize].to_vec();
    let (stayed, entered): (Vec<u8>, Vec<u8>) = queue.iter().partition(|number| kept.contains(number));
    let mut queue: Vec<u8> = entered.into_iter().rev().chain(stayed).collect();
    queue.sort_by_key(|&number| 15 - after.task(number).priority);
    after.queue[..queue.len()].copy_from_slice(&queue);
}

/// A restart that catches up counts from now.
fn drifting_catch_up(before: &Table, after: &mut Table, record: &[u8]) {
    let now = after.clock;
    let caller = before.queue[0];
    if record[0] == 0x01 && after.task(caller).state == State::Ready {
        after.task_mut(caller).started = now;
    }
}

/// The cancel of a pause wakes a task that is due, too.
fn cancel_wakes_due(before: &Table, after: &mut Table, record: &[u8], answer: &mut Answer) {
    if let [0x03, number] = *record {
        if let State::Due(time) = before.task(number).state {
            after.task_mut(number).state = State::Paused(time);
            *answer = step_unchecked(after, record);
        }
    }
}

/// A task that waits for all of some flags needs none again that was set while it waited.
fn remembered_flag(before: &Table, after: &mut Table, record: &[u8]) {
    let set = match *record {
        [0x09, operation, _] => operation == 1,
        [0x0B, _, count, _] => count == 0,
        _ => before.alarms != after.alarms,
    };
    let flags = if set { after.flags } else { 0 };
    for task in &mut after.tasks {
        if let State::WaitAll(mask) = &mut task.state {
            *mask &= !flags;
        }
    }
}

/// A restart loses the start that is queued for the caller.
fn lost_start(before: &Table, after: &mut Table, record: &[u8]) {
    if record[0] == 0x01 {
        after.take_request(before.queue[0]);
    }
}

/// A queued start begins and stays in the pool, so that it begins again.
fn start_twice(before: &Table, after: &mut Table, record: &[u8]) {
    if record[0] == 0x00 {
        after.pool = before.pool;
        after.asked = before.asked;
    }
}

/// Those whom a tick wakes enter in another order.
fn wake_by<K: Ord>(before: &Table, after: &mut Table, record: &[u8], key: impl Fn(u8, State) -> K) {
    if record[0] != 0x80 {
        return;
    }
    let kept = &before.queue[..before.queued as usize];
    let queue = &after.queue[..after.queued as usize];
    let mut woken: Vec<u8> = queue.iter().copied().filter(|number| !kept.contains(number)).collect();
    woken.sort_by_key(|&number| key(number, before.task(number).state));
    let mut queue = [kept, &woken].concat();
    queue.sort_by_key(|&number| 15 - after.task(number).priority);
    after.queue[..queue.len()].copy_from_slice(&queue);
}

/// Who waits for a subprogram stands behind all that waited before, whatever its priority.
fn first_come_first_served(before: &Table, after: &mut Table, record: &[u8]) {
    if let [0x06, number] = *record {
        let (old, new) = (&before.subs[number as usize], &mut after.subs[number as usize]);
        if new.waiting > old.waiting {
            new.line = old.line;
            new.line[old.waiting as usize] = before.queue[0];
        }
    }
}

/// Who leaves a subprogram stays its holder, also where the next one enters it.
fn leaver_holds(before: &Table, after: &mut Table, record: &[u8]) {
    if let [0x07, number] = *record {
        after.subs[number as usize].holder = before.queue[0];
    }
}

/// A run ends while its task holds subprograms, and a dormant task holds them.
fn holder_sleeps(before: &Table, table: &mut Table, record: &[u8]) -> Answer {
    for sub in table.subs.iter_mut().filter(|sub| sub.holder == before.queue[0]) {
        sub.holder = 0;
    }
    let answer = step_unchecked(table, record);
    table.subs = before.subs;
    answer
}

/// A message waits behind all that were sent before, whatever its sender's priority.
fn messages_by_arrival(before: &Table, after: &mut Table, record: &[u8]) {
    if record[0] == 0x14 && after.sent > before.sent {
        let sender = before.queue[0];
        let priority = before.task(sender).priority;
        let text = record[2..].try_into().expect("a text has eight bytes");
        after.messages = before.messages;
        after.messages[before.sent as usize] = Message { to: record[1], sender, priority, text };
    }
}

/// A message wakes its receiver also where that one waits for another sender.
fn any_sender_wakes(before: &Table, after: &mut Table, record: &[u8]) {
    if let [0x14, to, ..] = *record {
        if let State::WaitMessage(_) = after.task(to).state {
            *after = *before;
            after.task_mut(to).state = State::WaitMessage(0);
            step_unchecked(after, record);
        }
    }
}

/// The message in the caller's entry outlives its run.
fn mail_survives(before: &Table, after: &mut Table, record: &[u8]) {
    if ends(record) {
        let caller = before.queue[0];
        after.task_mut(caller).mail = before.task(caller).mail;
    }
}
