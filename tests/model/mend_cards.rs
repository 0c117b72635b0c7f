//! Cards of the mender: each rule, a chain, links, holders, stray counts, what is rebuilt, and stray bytes.

use crate::cards::{accepted, lined_table, mailed_table, table};
use crate::check::well_formed;
use crate::image::{encode, LENGTH};
use crate::mend::{mend, mend_image, told, Mended, MendedImage, RULES};
use crate::table::{Message, State, Table, Task, LAST_CLOCK, LONGEST};

/// Task 1 is paused; 2 waits for the end of 6's run; 3 waits for flag 0; 4 waits for the start of a request for 6; 5 is
/// active and 6 ready behind it; 7 is dormant.
fn linked_table() -> Table {
    let mut t = table(1, &[(9, 1), (8, 1), (7, 1), (6, 1), (5, 1), (4, 0), (3, 0)]);
    let waits: [&[u8]; 4] = [&[2, 0, 9], &[5, 0xC0, 6, 0, 0], &[0x0A, 0, 0, 0, 0, 1], &[5, 0xA0, 6, 0, 0]];
    accepted(&mut t, &waits);
    t
}

/// The list of a table that is spoilt, where what is mended is well formed and mended again is the same.
fn list_of(good: &Table, spoil: fn(&mut Table)) -> Vec<(u8, u8)> {
    mended_from(good, spoil).list
}

fn mended_from(good: &Table, spoil: fn(&mut Table)) -> Mended {
    assert!(well_formed(good));
    let mut broken = *good;
    spoil(&mut broken);
    let mended = mend(&broken);
    let again = Mended { number: 0, table: mended.table, list: Vec::new() };
    assert!(mended.number == 0 && well_formed(&mended.table) && mend(&mended.table) == again, "{mended:?}");
    for (number, (before, after)) in (1..).zip(broken.tasks.iter().zip(&mended.table.tasks)) {
        let listed = mended.list.iter().filter(|(task, _)| *task == number).count();
        assert_eq!(listed, usize::from(before != after), "task {number} of {mended:?}");
    }
    mended
}

/// How a table is spoilt, and what is listed then.
type Spoilt = (fn(&mut Table), &'static [(u8, u8)]);

fn all_are_listed(good: &Table, spoilt: &[Spoilt]) -> bool {
    spoilt.iter().enumerate().all(|(place, (spoil, list))| {
        let given = list_of(good, *spoil);
        if given != *list {
            println!("spoilt table {place}: {given:?} and not {list:?}");
        }
        given == *list
    })
}

/// Each rule of an entry by itself, as little broken as can be.
const OWN: [Spoilt; 22] = [
    (|t| t.tasks[4].own = 16, &[(5, 1)]),
    (|t| t.tasks[4].priority = 16, &[(5, 1)]),
    (|t| t.tasks[6].priority = 16, &[(7, 1)]),
    (|t| t.tasks[4].state = State::WaitSub(8), &[(5, 1)]),
    (|t| t.tasks[4].state = State::WaitMessage(8), &[(5, 1)]),
    (|t| t.tasks[4].mail.sender = 8, &[(5, 1)]),
    (|t| t.tasks[7].argument = 1, &[(8, 1)]),
    (|t| t.tasks[15].mail.text[7] = 1, &[(16, 1)]),
    (|t| t.tasks[15].state = State::Ready, &[(16, 1)]),
    (|t| t.tasks[0].state = State::Paused(t.clock), &[(1, 3)]),
    (|t| t.tasks[0].state = State::Due(t.clock + LONGEST + 1), &[(1, 3)]),
    (|t| t.tasks[4].started = t.clock + 1, &[(5, 4)]),
    (|t| t.tasks[6].started = t.clock + 1, &[(7, 4)]),
    (|t| t.tasks[2].state = State::WaitAny(0), &[(3, 5)]),
    (|t| t.tasks[2].state = State::WaitAll(0), &[(3, 5)]),
    (|t| t.flags = 1, &[(3, 5)]),
    (|t| t.tasks[4].end_waiter = 8, &[(5, 1)]),
    (|t| t.tasks[4].end_waiter = 1, &[(5, 7)]),
    (|t| t.tasks[4].end_waiter = 5, &[(5, 7)]),
    (|t| t.tasks[6].argument = 1, &[(7, 8)]),
    (|t| t.tasks[6].end_waiter = 2, &[(7, 8)]),
    (|t| t.tasks[6].mail.text[0] = 1, &[(7, 8)]),
];

/// The same of messages, also where one that fits is itself out of range: 3 waits for any, 1 for one of 2.
const OF_MESSAGES: [Spoilt; 6] = [
    (|t| t.messages[0].to = 3, &[(3, 11)]),
    (|t| t.messages[0].sender = 2, &[(1, 11)]),
    (|t| t.messages[31] = Message { to: 3, ..Message::default() }, &[(3, 11)]),
    (|t| t.messages[31] = Message { to: 1, sender: 2, priority: 99, ..Message::default() }, &[(1, 11)]),
    (|t| t.messages[1].priority = 16, &[]),
    (|t| t.messages[1].sender = 7, &[]),
];

/// Waiters that nothing names, and links that two have.
const OF_LINKS: [Spoilt; 8] = [
    (|t| t.pool[0].start_waiter = 0, &[(4, 13)]),
    (|t| t.pool[0].start_waiter = 8, &[(4, 13)]),
    (|t| t.pool[0].start_waiter = 1, &[(4, 13)]),
    (|t| t.pool[0].priority = 16, &[(4, 13)]),
    (|t| t.tasks[5].end_waiter = 0, &[(2, 13)]),
    (|t| t.tasks[5].end_waiter = 9, &[(2, 13), (6, 1)]),
    // a request names one waiter, and the link of a run comes before that of a request
    (|t| t.pool[0].end_waiter = 2, &[]),
    // of two runs the one of the lower number keeps the link
    (|t| t.tasks[4].end_waiter = 2, &[(6, 7)]),
];

pub fn rules_of_an_entry() -> bool {
    let all = [all_are_listed(&linked_table(), &OWN), all_are_listed(&mailed_table(), &OF_MESSAGES)];
    let own = mended_from(&linked_table(), |t| (t.tasks[4].own, t.tasks[4].argument) = (16, 9));
    let kept = mended_from(&linked_table(), |t| t.tasks[4].started = t.clock + 1);
    let dormant = |own| Task { own, ..Task::default() };
    all == [true; 2] && own.table.tasks[4] == dormant(0) && kept.table.tasks[4] == dormant(5)
}

pub fn rules_of_links() -> bool {
    all_are_listed(&linked_table(), &OF_LINKS)
}

/// 6 becomes dormant, its request is dropped, and those who waited for its start and its end become ready; and no more
/// of them changes.
pub fn chain() -> bool {
    let good = linked_table();
    let mended = mended_from(&good, |t| t.tasks[5].priority = 16);
    let t = mended.table;
    let ready = |number: u8| Task { state: State::Ready, ..*good.task(number) };
    mended.list == [(2, 13), (4, 13), (6, 1)]
        && t.asked == 0
        && (t.tasks[1], t.tasks[3]) == (ready(2), ready(4))
        && t.queue[..4] == [2, 4, 5, 0]
}

/// Of two runs that name a waiter the first becomes dormant: the second keeps its link, and the waiter waits on.
pub fn two_links() -> bool {
    let mended = mended_from(&linked_table(), |t| (t.tasks[4].end_waiter, t.tasks[4].priority) = (2, 16));
    mended.list == [(5, 1)] && mended.table.task(2).state == State::WaitEnd && mended.table.task(6).end_waiter == 2
}

/// The holder becomes dormant, or is nobody: those in its line become ready, in the order of their numbers, since no
/// old queue has them.
pub fn lost_holder() -> bool {
    let good = lined_table();
    let dormant = mended_from(&good, |t| t.tasks[0].started = t.clock + 1);
    let nobody = mended_from(&good, |t| t.subs[2].holder = 7);
    let waits = [(2, 13), (3, 13), (4, 13)];
    dormant.list == [&[(1, 4)], &waits[..]].concat()
        && nobody.list == waits
        && [dormant.table, nobody.table].iter().all(|t| t.subs[2] == Default::default() && t.queue[..4] == [2, 3, 4, 5])
}

/// What no entry shows: counts, the word, alarms, free places between, the order of a line.
pub fn stray_counts() -> bool {
    let spoils: [fn(&mut Table); 10] = [
        |t| t.queued = 0,
        |t| t.queued = 255,
        |t| t.asked = 0,
        |t| t.sent = 33,
        |t| t.subs[0].waiting = 1,
        |t| t.levels = 0,
        |t| t.alarms[3] = t.clock + LONGEST + 1,
        |t| t.queue.swap(0, 1),
        |t| t.queue = [0; 16],
        |t| t.pool.swap(0, 31),
    ];
    let good = linked_table();
    spoils.iter().all(|spoil| mended_from(&good, *spoil) == Mended { number: 0, table: good, list: Vec::new() })
        && mended_from(&mailed_table(), |t| t.sent = 0).table == mailed_table()
        && mended_from(&lined_table(), |t| t.subs[2].waiting = 0).table == lined_table()
}

/// Equals keep their old places, those that had none come last by number, and a task that stands twice its first.
pub fn rebuilt() -> bool {
    let good = table(1, &[(7, 1), (7, 1), (7, 1), (9, 1)]);
    let queue = |spoil| mended_from(&good, spoil).table.queue[..4].to_vec();
    queue(|t| t.queue[1..4].copy_from_slice(&[3, 0, 3])) == [4, 3, 1, 2]
        && queue(|t| t.queue[..5].copy_from_slice(&[3, 2, 3, 99, 1])) == [4, 3, 2, 1]
}

pub fn sound_stays() -> bool {
    [linked_table(), lined_table(), mailed_table(), table(1, &[(7, 0)])].iter().all(|good| {
        let image = encode(good);
        let mended = MendedImage { number: 0, image: image.clone(), list: Vec::new() };
        mend(good) == Mended { number: 0, table: *good, list: Vec::new() }
            && mend_image(&image) == mended
            && told(&image, &mended) == "nothing to mend\n"
    })
}

pub fn seventeen() -> bool {
    let spoils: [fn(&mut Table); 5] = [
        |t| t.clock = LAST_CLOCK + 1,
        |t| t.granule = 0,
        |t| t.count = 0,
        |t| t.count = 17,
        |t| (t.clock, t.tasks[0].own) = (u64::MAX, 16),
    ];
    spoils.iter().all(|spoil| {
        let mut table = linked_table();
        spoil(&mut table);
        mend(&table) == Mended { number: 17, table, list: Vec::new() } && mend_image(&encode(&table)).number == 17
    }) && mend_image(&[0; LENGTH - 1]).number == 1
}

/// Bytes that a state does not use: a time, a mask and a subprogram at a ready task, or at no task; a byte that is no
/// state's breaks a rule.
pub fn stray_bytes() -> bool {
    let good = encode(&linked_table());
    let listed = |at: &[usize], byte: u8| {
        let mut image = good.clone();
        at.iter().for_each(|at| image[*at] = byte);
        (mend_image(&image).image == good, mend_image(&image).list)
    };
    listed(&[4 * 26 + 9], 1) == (true, vec![(5, 0)])
        && listed(&[5 * 26 + 13, 898 + 4], 1) == (true, vec![(5, 0), (6, 0)])
        && listed(&[898, 15 * 26 + 2], 7) == (true, vec![(1, 0), (16, 0)])
        && listed(&[4 * 26 + 9, 4 * 26 + 1], 10) == (false, vec![(5, 1)])
        && listed(&[432], 1) == (true, vec![])
        && RULES == [0, 1, 3, 4, 5, 7, 8, 11, 13]
}
