//! The check of a table: every rule of document 01's sentence.

use crate::table::{Message, Request, State, Sub, Table, Task, LAST_CLOCK, LONGEST, MESSAGES, PLACES, SUBS, TASKS};

/// Whether a table keeps every rule of the sentence, and document 02's.
pub fn well_formed(table: &Table) -> bool {
    all_but_queue(table) && queue_is_right(table)
}

/// Every rule but those of the queue and of the word of the ready levels, in the sentence's order.
pub(crate) fn all_but_queue(table: &Table) -> bool {
    in_range(table)
        && times_are_ahead(table)
        && table.tasks.iter().all(|task| task.started <= table.clock)
        && waits_are_open(table)
        && table.pool[..table.asked as usize].iter().all(|request| table.task(request.task).state != State::Dormant)
        && links_match(table)
        && idle_entries_are_zero(table)
        && (0..).zip(&table.subs).all(|(number, sub)| sub_is_right(table, number, sub))
        && messages_are_right(table)
}

/// The queue's rules and the word's, where all others are kept.
fn queue_is_right(table: &Table) -> bool {
    table.queued <= table.count
        && table.queue[..table.queued as usize].iter().all(|&number| 1 <= number && number <= table.count)
        && line_is_right(table, &table.queue, table.queued, State::Ready)
        && table.levels == table.ready_levels()
}

/// Every number is in range, but the queue's.
fn in_range(table: &Table) -> bool {
    let count = table.count;
    let is_task = |number: u8| 1 <= number && number <= count;
    (1..=TASKS).contains(&(count as usize))
        && table.granule >= 1
        && table.clock <= LAST_CLOCK
        && table.tasks.iter().all(|task| task.own <= 15 && task.priority <= 15 && task.end_waiter <= count)
        && table.tasks.iter().all(|task| !matches!(task.state, State::WaitSub(number) if number as usize >= SUBS))
        && table.tasks.iter().all(|task| !matches!(task.state, State::WaitMessage(sender) if sender > count))
        && table.tasks.iter().all(|task| task.mail.sender <= count)
        && table.sent as usize <= MESSAGES
        && table
            .waiting()
            .iter()
            .all(|message| is_task(message.to) && is_task(message.sender) && message.priority <= 15)
        && table.subs.iter().all(|sub| {
            sub.holder <= count
                && sub.waiting <= count
                && sub.line[..sub.waiting as usize].iter().all(|&number| is_task(number))
        })
        && table.asked as usize <= PLACES
        && table.pool[..table.asked as usize].iter().all(|request| {
            is_task(request.task)
                && request.priority <= 15
                && request.start_waiter <= count
                && request.end_waiter <= count
        })
}

/// A line holds exactly the tasks of its state, once each, in descending priority, zeros after them: the ready queue
/// those that are ready, a subprogram's those that wait for it.
fn line_is_right(table: &Table, line: &[u8; TASKS], held: u8, state: State) -> bool {
    let (held, free) = line.split_at(held as usize);
    let mut seen = 0u32;
    let mut last = 15;
    for &number in held {
        let task = table.task(number);
        if task.state != state || seen >> number & 1 == 1 || task.priority > last {
            return false;
        }
        seen |= 1 << number;
        last = task.priority;
    }
    let such = table.tasks.iter().filter(|task| task.state == state).count();
    such == held.len() && free.iter().all(|&number| number == 0)
}

/// The holder of a subprogram is not dormant; none has waiters while free; its line is right.
fn sub_is_right(table: &Table, number: u8, sub: &Sub) -> bool {
    (sub.holder == 0 || table.task(sub.holder).state != State::Dormant)
        && (sub.holder != 0 || sub.waiting == 0)
        && line_is_right(table, &sub.line, sub.waiting, State::WaitSub(number))
}

/// Every stored pause, due and alarm time is after the clock, and not too far after it.
fn times_are_ahead(table: &Table) -> bool {
    let ahead = |time: u64| time > table.clock && time - table.clock <= LONGEST;
    table.tasks.iter().all(|task| match task.state {
        State::Paused(time) | State::Due(time) => ahead(time),
        _ => true,
    }) && table.alarms.iter().all(|&time| time == 0 || ahead(time))
}

/// Each wait mask is nonzero and its condition is false now.
fn waits_are_open(table: &Table) -> bool {
    table.tasks.iter().all(|task| match task.state {
        State::WaitAny(0) | State::WaitAll(0) => false,
        state => !table.condition(state),
    })
}

/// Each link names a different task in the matching state; each such state is named once. A
/// request names one waiter at most.
fn links_match(table: &Table) -> bool {
    let mut named = 0u32;
    let mut link = |holder: u8, waiter: u8, state: State| {
        let right = waiter == 0 || waiter != holder && table.task(waiter).state == state && named >> waiter & 1 == 0;
        named |= 1 << waiter;
        right
    };
    let runs = (1..).zip(&table.tasks).all(|(number, task)| link(number, task.end_waiter, State::WaitEnd));
    let requests = table.pool[..table.asked as usize].iter().all(|request| {
        (request.start_waiter == 0 || request.end_waiter == 0)
            && link(request.task, request.start_waiter, State::WaitStart)
            && link(request.task, request.end_waiter, State::WaitEnd)
    });
    runs && requests
        && (1..).zip(&table.tasks).all(|(number, task): (u32, _)| {
            !matches!(task.state, State::WaitStart | State::WaitEnd) || named >> number & 1 == 1
        })
}

/// Dormant tasks hold zeros but for their own priority; entries past the count and free places
/// hold nothing.
fn idle_entries_are_zero(table: &Table) -> bool {
    let (kept, past) = table.tasks.split_at(table.count as usize);
    kept.iter().all(|task| task.state != State::Dormant || *task == Task { own: task.own, ..Task::default() })
        && past.iter().all(|task| *task == Task::default())
        && table.pool[table.asked as usize..].iter().all(|place| *place == Request::default())
}

/// No fitting message waits for a task that waits for one; they stand in descending priority, zeros after them.
fn messages_are_right(table: &Table) -> bool {
    let waiting = table.waiting();
    let met = |(number, task): (u8, &Task)| match task.state {
        State::WaitMessage(sender) => waiting.iter().any(|message| message.fits(number, sender)),
        _ => false,
    };
    !(1..).zip(&table.tasks).any(met)
        && waiting.windows(2).all(|pair| pair[0].priority >= pair[1].priority)
        && table.messages[waiting.len()..].iter().all(|place| *place == Message::default())
}
