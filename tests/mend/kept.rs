//! What mending must keep, said apart from how it is done: what is sound goes on.

use model::mend::MendedImage;
use model::table::{Message, Request, State, Table, Task, LONGEST};

/// The first thing that is not as it must be, in words.
pub fn kept(before: &Table, after: &Table, mended: &MendedImage) -> Result<(), String> {
    let all = [
        ("count, granule, clock or flags", same_frame(before, after)),
        ("the alarms", alarms(before, after)),
        ("the holders", holders(before, after)),
        ("the requests", requests(before, after)),
        ("the messages", messages(before, after)),
    ];
    if let Some((what, _)) = all.iter().find(|(_, right)| !right) {
        return Err(format!("{what} are not as they must be"));
    }
    for (number, (one, other)) in (1..).zip(before.tasks.iter().zip(&after.tasks)) {
        let rule = mended.list.iter().find(|(listed, _)| *listed == number).map(|(_, rule)| *rule);
        if !entry(one, other, rule, number > before.count) {
            return Err(format!("the entry of task {number}, listed {rule:?}, is not as it must be"));
        }
    }
    Ok(())
}

fn same_frame(before: &Table, after: &Table) -> bool {
    let frame = |table: &Table| (table.count, table.granule, table.clock, table.flags);
    frame(before) == frame(after)
}

/// An alarm in range is kept, any other is cleared.
fn alarms(before: &Table, after: &Table) -> bool {
    let in_range = |time: u64| time > before.clock && time - before.clock <= LONGEST;
    before.alarms.iter().zip(&after.alarms).all(|(one, other)| *other == if in_range(*one) { *one } else { 0 })
}

fn is_busy(table: &Table, number: u8) -> bool {
    (1..=table.count).contains(&number) && table.task(number).state != State::Dormant
}

/// Who holds a subprogram and stays busy goes on to hold it.
fn holders(before: &Table, after: &Table) -> bool {
    let kept = |holder: u8| if is_busy(after, holder) { holder } else { 0 };
    before.subs.iter().zip(&after.subs).all(|(one, other)| other.holder == kept(one.holder))
}

/// A request in range for a task that stays busy is kept, in the old order; of its waiters at most one, or none.
fn requests(before: &Table, after: &Table) -> bool {
    let stays = |request: &&Request| is_busy(after, request.task) && request.priority <= 15;
    let old: Vec<&Request> = before.pool.iter().filter(stays).collect();
    let new = &after.pool[..after.asked as usize];
    let same = |(one, other): (&&Request, &Request)| {
        let unlinked = Request { start_waiter: other.start_waiter, end_waiter: other.end_waiter, ..**one };
        unlinked == *other
            && (other.start_waiter == 0 || other.start_waiter == one.start_waiter)
            && (other.end_waiter == 0 || other.end_waiter == one.end_waiter)
    };
    old.len() == new.len() && old.iter().zip(new).all(same)
}

/// A message in range is kept: by priority, then in the old order.
fn messages(before: &Table, after: &Table) -> bool {
    let tasks = 1..=before.count;
    let in_range =
        |message: &Message| tasks.contains(&message.to) && tasks.contains(&message.sender) && message.priority <= 15;
    let mut old: Vec<Message> = before.messages.iter().copied().filter(in_range).collect();
    old.sort_by_key(|message| 15 - message.priority);
    old == after.waiting()
}

/// An entry that is listed, or not, as its rule says: zero past the count; dormant; without its link; or ready.
fn entry(before: &Task, after: &Task, rule: Option<u8>, past: bool) -> bool {
    let waited = matches!(before.state, State::WaitStart | State::WaitEnd | State::WaitSub(_));
    let woken = Task { state: State::Ready, ..*before };
    let unlinked = Task { end_waiter: 0, ..*before };
    let cleared = *after == unlinked || waited && *after == Task { state: State::Ready, ..unlinked };
    let dormant = *after == Task { own: if before.own > 15 { 0 } else { before.own }, ..Task::default() };
    match rule {
        None | Some(0) => after == before,
        Some(_) if past => *after == Task::default(),
        Some(1) => dormant || before.end_waiter != 0 && cleared,
        Some(7) => before.end_waiter != 0 && cleared,
        Some(13) => waited && *after == woken,
        Some(_) => dormant,
    }
}
