//! The bench cards and the listing of document 01, and the check of a table, on this program.

use crate::bench::listing;
use crate::check::well_formed;
use crate::configuration::fresh;
use crate::mend_cards::{
    chain, lost_holder, rebuilt, rules_of_an_entry, rules_of_links, seventeen, sound_stays, stray_bytes, stray_counts,
    two_links,
};
use crate::steps::step;
use crate::table::{Answer, Mail, Message, State, Sub, Table, Task, Text, LAST_CLOCK, LONGEST};
use crate::why::{why, Reason, Why};

/// The input of document 01's listing.
pub const PAPER_INPUT: [u8; 39] = [
    0x40, 0x0A, 0x41, 0x07, 0x01, 0x41, 0x05, 0x01, 0x41, 0x07, 0x00, 0x42, 0x04, 0x80, 0x03, 0x02, 0x00, 0x0F, 0x80,
    0x05, 0xA0, 0x02, 0x00, 0x04, 0x80, 0x0A, 0x00, 0x00, 0x00, 0x00, 0x01, 0x00, 0x09, 0x01, 0x00, 0x02, 0x05, 0x01,
    0x00,
];

/// The output of document 01's listing.
pub const PAPER_OUTPUT: &[u8] = b"granule 10 tasks 3 active 1
1 04 0 000 1
2 02 0 000 3
3 80 0 000 3
4 05 0 100 2
5 80 0 000 1
6 0A 0 000 2
7 00 0 000 3
8 09 0 000 3
9 02 0 000 1
10 00 0 000 2
end
";

/// Whether the model keeps a card.
type Card = fn() -> bool;

/// Lists the cards by name, and makes each a test.
macro_rules! cards {
    ($($name:literal: $card:ident,)*) => {
        const CARDS: &[(&str, Card)] = &[$(($name, $card)),*];

        #[cfg(test)]
        mod tests {
            $(
                #[test]
                fn $card() {
                    assert!(super::$card(), "the card '{}' does not hold", $name);
                }
            )*
        }
    };
}

cards! {
    "01's listing": listing_of_the_paper,
    "P1": p1,
    "P2": p2,
    "P3": p3,
    "P4": p4,
    "P5": p5,
    "P6": p6,
    "P7": p7,
    "P8": p8,
    "P9": p9,
    "P10": p10,
    "P11": p11,
    "P12": p12,
    "order at an end": order_at_an_end,
    "refusals change nothing": refusals_change_nothing,
    "broken tables give 1": broken_tables,
    "A2: a ring and what leads to it": ring_with_a_lead,
    "A2: flags that are missing": missing_flags,
    "A4: three tasks at one routine": three_at_one_routine,
    "A4: refusals": refusals_at_a_routine,
    "A4: broken tables give 1": broken_lines,
    "A4: a ring through a holder": ring_through_a_holder,
    "A8: which door": which_door,
    "A8: in the order of priority": by_priority,
    "A8: refusals": refusals_of_messages,
    "A8: broken tables give 1": broken_messages,
    "A8: mail is gone": mail_is_gone,
    "A13: the rules of an entry": rules_of_an_entry,
    "A13: the rules of links": rules_of_links,
    "A13: a chain": chain,
    "A13: two links to one waiter": two_links,
    "A13: a lost holder": lost_holder,
    "A13: stray counts": stray_counts,
    "A13: what is rebuilt": rebuilt,
    "A13: what is sound stays": sound_stays,
    "A13: 17": seventeen,
    "A13: stray bytes": stray_bytes,
}

/// Prints of every card whether it holds; true if all do.
pub fn cards() -> bool {
    let mut right = true;
    for (name, card) in CARDS {
        let holds = card();
        println!("{name}: {}", if holds { "holds" } else { "DOES NOT HOLD" });
        right &= holds;
    }
    right
}

/// The fresh table of a granule and tasks of own priority and mark.
pub(crate) fn table(granule: u8, tasks: &[(u8, u8)]) -> Table {
    let mut bytes = vec![0x40, granule];
    tasks.iter().for_each(|(own, mark)| bytes.extend([0x41, *own, *mark]));
    bytes.push(0x42);
    fresh(&bytes).expect("a good configuration")
}

/// Steps that must all be accepted; the last answer.
pub(crate) fn accepted(table: &mut Table, records: &[&[u8]]) -> Answer {
    let mut last = Answer::default();
    for record in records {
        last = step(table, record);
        assert_eq!(last.number, 0, "{record:02X?} on {table:?}");
    }
    last
}

fn zvc(answer: Answer) -> (u8, bool, bool, bool) {
    (answer.number, answer.z, answer.v, answer.c)
}

fn listing_of_the_paper() -> bool {
    listing(&PAPER_INPUT, step) == PAPER_OUTPUT
}

fn p1() -> bool {
    table(1, &[(7, 1), (7, 1)]).queue[0] == 1
}

fn p2() -> bool {
    let mut t = table(100, &[(7, 1), (7, 1)]);
    let idle = accepted(&mut t, &[&[2, 0, 1], &[2, 0, 99]]).active == 0;
    accepted(&mut t, &[&[0x80]]);
    idle && t.queue[..3] == [1, 2, 0]
}

fn p3() -> bool {
    let paused = |unit: u8, count: u8| {
        let mut t = table(1, &[(7, 1)]);
        accepted(&mut t, &[&[2, unit, count]]);
        t.task(1).state
    };
    paused(2, 30) == State::Paused(30_000)
        && paused(4, 255) == State::Paused(918_000_000)
        && paused(5, 30) == State::Paused(2_592_000_000)
        && paused(5, 255) == State::Paused(22_032_000_000)
}

/// The one task, last scheduled at `started`, after its run ended at `clock` by 01, 5 minutes.
fn ended_at(clock: u64, started: u64) -> Task {
    let mut t = table(1, &[(7, 1)]);
    t.clock = clock;
    t.tasks[0].started = started;
    accepted(&mut t, &[&[1, 3, 5]]);
    t.tasks[0]
}

fn p4() -> bool {
    let late = ended_at(420_000, 0);
    late.state == State::Ready && late.started == 300_000
}

fn p5() -> bool {
    let (early, exact) = (ended_at(540_000, 300_000), ended_at(600_000, 300_000));
    early.state == State::Due(600_000)
        && early.started == 300_000
        && exact.state == State::Ready
        && exact.started == 600_000
}

fn p6() -> bool {
    let mut t = table(1, &[(7, 1)]);
    t.clock = 5;
    let answer = step(&mut t, &[1, 6, 9]);
    let at_once = answer.active == 1 && t.tasks[0].started == 5;
    let day = step(&mut t, &[1, 5, 1]);
    zvc(answer) == (0, false, true, false)
        && at_once
        && zvc(day) == (0, false, false, false)
        && t.tasks[0].state == State::Due(86_400_005)
}

fn p7() -> bool {
    let mut t = table(1, &[(7, 1), (5, 1)]);
    accepted(&mut t, &[&[0x0A, 1, 0, 0, 0, 3], &[9, 1, 0], &[9, 0, 0], &[9, 1, 1]]);
    t.task(1).state == State::WaitAll(3)
}

fn p8() -> bool {
    let mut t = table(1, &[(7, 1)]);
    for n in 0..32 {
        accepted(&mut t, &[&[5, 0x80, 1, 0, n]]);
    }
    let full = step(&mut t, &[5, 0x80, 1, 0, 99]);
    let begun = accepted(&mut t, &[&[0]]);
    let again = step(&mut t, &[5, 0x80, 1, 0, 99]);
    full.number == 8 && begun.argument == 0 && t.asked == 32 && again.number == 0 && again.z
}

fn p9() -> bool {
    let mut t = table(1, &[(7, 1), (7, 1)]);
    let before = t;
    let answer = step(&mut t, &[4, 0x80, 2]);
    zvc(answer) == (0, true, false, false) && t == before
}

fn p10() -> bool {
    let mut t = table(1, &[(7, 1)]);
    let waits = step(&mut t, &[5, 0xA0, 1, 0, 1]);
    let queues = step(&mut t, &[5, 0x80, 1, 0, 1]);
    zvc(waits) == (7, false, true, false) && zvc(queues) == (0, true, false, false) && t.asked == 1
}

fn p11() -> bool {
    let mut t = table(1, &[(7, 1)]);
    t.clock = LAST_CLOCK - 1;
    let lands = step(&mut t, &[0x80]);
    let past = step(&mut t, &[0x80]);
    lands.number == 0 && t.clock == LAST_CLOCK && zvc(past) == (10, false, false, false)
}

fn p12() -> bool {
    let mut t = table(1, &[(7, 0)]);
    zvc(step(&mut t, &[0])) == (5, false, false, false)
}

/// Task 3 waits for task 1's end, task 4 for the start of task 1's next run: 3, then 1, then 4.
fn order_at_an_end() -> bool {
    let mut t = table(1, &[(7, 0), (1, 1), (7, 1), (7, 1)]);
    accepted(&mut t, &[&[5, 0xC7, 1, 0, 1], &[5, 0xA7, 1, 0, 2]]);
    let waiting = t.queue[..3] == [1, 2, 0] && t.task(1).end_waiter == 3;
    accepted(&mut t, &[&[0]]);
    waiting && t.queue[..5] == [3, 1, 4, 2, 0] && t.task(1).argument == 2 && t.asked == 0
}

/// Each refusal has its number by the order of document 01, and keeps the table.
fn refusals_change_nothing() -> bool {
    let mut t = table(1, &[(7, 1), (7, 0)]);
    accepted(&mut t, &[&[0x0B, 0, 9, 4]]);
    let before = t;
    let all: [(&[u8], u8); 16] = [
        (&[], 3),
        (&[0, 0], 3),
        (&[0x40], 4),
        (&[0x42], 4),
        (&[8], 4),
        (&[5, 0x60, 1, 0], 3),
        (&[5, 0x60, 1, 0, 0], 6),
        (&[5, 0x40, 1, 0, 0], 7),
        (&[2, 6, 0], 6),
        (&[2, 8, 1], 6),
        (&[3, 3], 6),
        (&[4, 0x10, 2], 6),
        (&[9, 3, 0], 6),
        (&[0x0A, 0, 0, 0, 0, 0], 6),
        (&[0x0B, 6, 0, 4], 6),
        (&[0x0B, 0, 0, 4], 9),
    ];
    all.iter().all(|(record, number)| {
        let v = matches!(number, 4 | 6 | 7);
        let answer = step(&mut t, record);
        zvc(answer) == (*number, false, v, false) && answer.active == 1 && t == before
    })
}

/// A good table with something of everything: 1 waits for 2's end, 4 for a start, 3 is due, 5 waits
/// for flags, 6 is paused, 7 is dormant.
fn rich_table() -> Table {
    let marked = (7, 1);
    let mut t = table(10, &[marked, (2, 0), marked, marked, marked, marked, (7, 0), (1, 1)]);
    accepted(&mut t, &[&[5, 0xC0, 2, 0, 1], &[1, 0, 99], &[5, 0xA0, 2, 0, 1]]);
    accepted(&mut t, &[&[0x0A, 1, 0, 0, 0, 6], &[2, 0, 99], &[0x0B, 2, 1, 7], &[9, 1, 1], &[0x80]]);
    t
}

/// Each rule of the sentence, broken once or more in the rich table.
const BREAKS: [fn(&mut Table); 38] = [
    |t| t.count = 0,
    |t| t.count = 17,
    |t| t.granule = 0,
    |t| t.clock = LAST_CLOCK + 1,
    |t| t.tasks[6].own = 16,
    |t| t.tasks[2].priority = 16,
    |t| t.tasks[1].end_waiter = 9,
    |t| t.pool[0].task = 0,
    |t| t.pool[0].priority = 16,
    |t| t.pool[0].start_waiter = 9,
    |t| t.asked = 33,
    |t| t.queued = 17,
    |t| t.queue[0] = 9,
    |t| t.queue.swap(0, 1),
    |t| t.queue[15] = 1,
    |t| t.queued -= 1,
    |t| t.queue[1] = t.queue[0],
    |t| t.tasks[6].state = State::Ready,
    |t| t.tasks[5].state = State::Paused(t.clock),
    |t| t.tasks[5].state = State::Due(t.clock + LONGEST + 1),
    |t| t.alarms[0] = t.clock,
    |t| t.alarms[31] = t.clock + LONGEST + 1,
    |t| t.tasks[1].started = t.clock + 1,
    |t| t.tasks[4].state = State::WaitAny(0),
    |t| t.tasks[4].state = State::WaitAny(2),
    |t| t.tasks[4].state = State::WaitAll(2),
    |t| t.pool[0].task = 7,
    |t| t.tasks[1].end_waiter = 0,
    |t| t.pool[0].end_waiter = 1,
    |t| t.pool[1].end_waiter = 1,
    |t| t.pool[0].task = 4,
    |t| t.tasks[6].argument = 1,
    |t| t.tasks[8].own = 1,
    |t| t.pool[2].argument = 1,
    |t| t.levels |= 1 << 12,
    |t| t.levels &= t.levels - 1,
    |t| t.levels |= 1 << t.tasks[5].priority,
    |t| t.levels = 0,
];

fn broken_tables() -> bool {
    all_are_found(&rich_table(), &BREAKS)
}

/// On each broken table every step answers 1 and keeps it.
fn all_are_found(good: &Table, breaks: &[fn(&mut Table)]) -> bool {
    well_formed(good)
        && breaks.iter().enumerate().all(|(place, spoil)| {
            let mut broken = *good;
            spoil(&mut broken);
            let kept = broken;
            let right = [&[][..], &[8], &[0x80]]
                .iter()
                .all(|record| step(&mut broken, record) == Answer { number: 1, ..Answer::default() });
            if !right || broken != kept {
                println!("broken table {place} was not found");
            }
            right && broken == kept
        })
}

fn ring_with_a_lead() -> bool {
    let mut t = table(1, &[(5, 1), (9, 1), (8, 1), (7, 1)]);
    accepted(&mut t, &[&[5, 0xC0, 3, 0, 0], &[5, 0xA0, 4, 0, 0], &[5, 0xC0, 2, 0, 0], &[5, 0xA0, 2, 0, 0]]);
    let ring = [(2, Reason::EndOfRequest(1, 3)), (3, Reason::Start(2, 4)), (4, Reason::EndOfRequest(3, 2))];
    let led = Why { path: [&[(1, Reason::Start(4, 2))], &ring[..]].concat(), ring: 3, ..Why::default() };
    let inside = Why { path: [&ring[1..], &ring[..1]].concat(), ring: 3, ..Why::default() };
    why(&t, 1) == led && why(&t, 3) == inside && why(&t, 5).number == 6 && why(&t, 0).v
}

fn missing_flags() -> bool {
    let mut t = table(1, &[(9, 1), (8, 1), (7, 1), (7, 1)]);
    let all = [0x0A, 1, 0, 0, 0, 0x88];
    let any = [0x0A, 0, 0, 0, 0, 0x81];
    accepted(&mut t, &[&all, &any, &[9, 1, 3]]);
    let of = |task| why(&t, task).path;
    of(1) == [(1, Reason::AllOf(0x80))]
        && of(2) == [(2, Reason::AnyOf(0x81))]
        && of(3) == [(3, Reason::Active)]
        && of(4) == [(4, Reason::Ready(1))]
}

/// Task 1 holds subprogram 3 and pauses. Task 4 waits first, then 3 and 2, both of a higher priority: 3, 2, 4 get it.
fn three_at_one_routine() -> bool {
    let mut t = table(1, &[(9, 1), (7, 1), (7, 1), (5, 1)]);
    let free = accepted(&mut t, &[&[6, 3]]);
    let held = free == Answer { active: 1, ..Answer::default() } && t.subs[3].holder == 1 && t.queue[..2] == [1, 2];
    accepted(&mut t, &[&[2, 0, 9], &[2, 0, 2], &[2, 0, 1], &[6, 3], &[0x80], &[6, 3], &[0x80]]);
    let waits = accepted(&mut t, &[&[6, 3]]);
    let lined = waits == Answer::default() && t.subs[3].line[..4] == [3, 2, 4, 0] && t.subs[3].waiting == 3;
    accepted(&mut t, &[&[0x80][..]; 7]);
    let handed = [(1, 3), (3, 2), (2, 4)].iter().all(|(leaver, next)| {
        let answer = accepted(&mut t, &[&[7, 3]]);
        let right = zvc(answer) == (0, false, false, false) && answer.active == *leaver;
        let entered = t.subs[3].holder == *next && t.queue[..3] == [*leaver, *next, 0];
        accepted(&mut t, &[&[0]]);
        right && entered
    });
    accepted(&mut t, &[&[7, 3]]);
    held && lined && handed && t.subs[3] == Sub::default() && t.queue[0] == 4
}

/// 6, then 13, 14 and 15, each with the table kept; a paused holder is none of these.
fn refusals_at_a_routine() -> bool {
    let mut t = table(1, &[(7, 1), (6, 1)]);
    accepted(&mut t, &[&[6, 7]]);
    let before = t;
    let all: [(&[u8], u8); 14] = [
        (&[6], 3),
        (&[7, 0, 0], 3),
        (&[6, 8], 6),
        (&[7, 8], 6),
        (&[6, 255], 6),
        (&[7, 255], 6),
        (&[6, 7], 13),
        (&[7, 0], 14),
        (&[0], 15),
        (&[1, 0, 0], 15),
        (&[1, 0x46, 1], 15),
        (&[1, 0x87, 1], 15),
        (&[1, 0xC0, 1], 6),
        (&[5, 0xA0, 1, 0, 0], 7),
    ];
    let refused = all.iter().all(|(record, number)| {
        let v = matches!(number, 6 | 7);
        let answer = step(&mut t, record);
        zvc(answer) == (*number, false, v, false) && answer.active == 1 && t == before
    });
    accepted(&mut t, &[&[2, 0, 1]]);
    let others = step(&mut t, &[7, 7]).number;
    accepted(&mut t, &[&[0]]);
    refused && others == 14 && step(&mut t, &[7, 7]).number == 5 && step(&mut t, &[6, 8]).number == 5
}

/// Subprogram 2 is held by 1, which is paused; 2 and 3, of one priority, and 4 wait for it; 5 is active, 6 dormant.
pub(crate) fn lined_table() -> Table {
    let mut t = table(1, &[(9, 1), (7, 1), (7, 1), (5, 1), (4, 1), (7, 0)]);
    accepted(&mut t, &[&[6, 2], &[2, 0, 9], &[6, 2], &[6, 2], &[6, 2]]);
    t
}

/// The rule of the subprograms, broken once or more in the table with a line.
const LINE_BREAKS: [fn(&mut Table); 16] = [
    |t| t.subs[0].holder = 6,
    |t| t.subs[0].holder = 7,
    |t| t.subs[7].holder = 255,
    |t| t.subs[2].holder = 0,
    |t| t.subs[2].line[2] = 3,
    |t| t.subs[2].line.swap(1, 2),
    |t| t.subs[2].line[3] = 5,
    |t| t.subs[2].line[15] = 1,
    |t| t.subs[5].line[0] = 1,
    |t| t.subs[2].waiting = 2,
    |t| t.subs[2].waiting = 4,
    |t| t.subs[2].waiting = 17,
    |t| t.tasks[3].state = State::WaitSub(3),
    |t| t.tasks[3].state = State::WaitSub(8),
    |t| t.tasks[0].state = State::WaitSub(2),
    |t| t.tasks[1].state = State::Paused(9),
];

/// Each of these gives 1; equals in another order, a task that waits for what it holds, and a holder in any state but
/// dormant do not.
fn broken_lines() -> bool {
    let good = lined_table();
    let mut turned = good;
    turned.subs[2].line.swap(0, 1);
    let mut itself = good;
    itself.subs[2].holder = 4;
    let mut due = good;
    due.tasks[0].state = State::Due(due.clock + 1);
    let wrong = Why { path: vec![(4, Reason::Subprogram(2, 4))], ring: 1, ..Why::default() };
    all_are_found(&good, &LINE_BREAKS) && [turned, itself, due].iter().all(well_formed) && why(&itself, 4) == wrong
}

/// 2 holds subprogram 0 and waits for 1, which 1 holds; 1 waits for 0; 3 waits for 1 as well.
fn ring_through_a_holder() -> bool {
    let mut t = table(1, &[(7, 1), (8, 1), (6, 1)]);
    accepted(&mut t, &[&[6, 0], &[2, 0, 1], &[6, 1], &[0x80], &[6, 1], &[6, 0], &[6, 1]]);
    let ring = [(1, Reason::Subprogram(0, 2)), (2, Reason::Subprogram(1, 1))];
    let led = Why { path: [&[(3, Reason::Subprogram(1, 1))], &ring[..]].concat(), ring: 2, ..Why::default() };
    why(&t, 3) == led
}

/// A 14 with a text of one byte.
fn message(to: u8, text: u8) -> [u8; 10] {
    [0x14, to, text, 0, 0, 0, 0, 0, 0, 0]
}

fn text(byte: u8) -> Text {
    [byte, 0, 0, 0, 0, 0, 0, 0]
}

/// Task 1 waits for a message from 3: one from 2 does not wake it, one from 3 does, and stands in its entry.
fn which_door() -> bool {
    let mut t = table(1, &[(9, 1), (7, 1), (5, 1)]);
    let waits = accepted(&mut t, &[&[0x15, 3]]) == Answer { active: 2, ..Answer::default() };
    let told = why(&t, 1).path == [(1, Reason::Message(3))];
    accepted(&mut t, &[&message(1, 4), &[2, 0, 9]]);
    let slept = t.task(1).state == State::WaitMessage(3) && t.sent == 1;
    let woke = accepted(&mut t, &[&message(1, 5)]);
    let stands = t.task(1).mail == Mail { sender: 3, text: text(5) } && t.sent == 1;
    let first = accepted(&mut t, &[&[0x15, 0]]);
    let cleared = t.task(1).mail == Mail::default() && t.sent == 0;
    let handed = Answer { active: 1, sender: 2, text: text(4), ..Answer::default() };
    waits && told && slept && woke == Answer { active: 1, ..Answer::default() } && stands && first == handed && cleared
}

/// Task 3 is dormant; 2, then 1 at a higher priority, then 2 again send to it: 1's comes first, then 2's in turn.
fn by_priority() -> bool {
    let mut t = table(1, &[(9, 1), (7, 1), (8, 0)]);
    accepted(&mut t, &[&[2, 0, 1], &message(3, 1), &[0x80], &message(3, 2), &[2, 0, 1], &message(3, 3)]);
    accepted(&mut t, &[&[4, 0x8F, 3]]);
    let mut handed = Vec::new();
    for _ in 0..3 {
        let answer = accepted(&mut t, &[&[0x15, 0]]);
        handed.push((answer.sender, answer.text[0]));
    }
    handed == [(1, 2), (2, 1), (2, 3)] && t.sent == 0 && t.messages[0] == Message::default()
}

/// 6, and 16 where the message would have to wait with 32 waiting: to one that waits for it, it is accepted.
fn refusals_of_messages() -> bool {
    let mut t = table(1, &[(9, 1), (7, 1)]);
    accepted(&mut t, &[&[0x15, 0]]);
    accepted(&mut t, &[&message(2, 7)[..]; 32]);
    let before = t;
    let all: [(&[u8], u8); 7] = [
        (&[0x14, 1], 3),
        (&[&message(1, 0)[..], &[0]].concat(), 3),
        (&message(0, 0), 6),
        (&message(3, 0), 6),
        (&[0x15, 3], 6),
        (&[0x15, 255], 6),
        (&message(2, 0), 16),
    ];
    let refused = all.iter().all(|(record, number)| {
        let answer = step(&mut t, record);
        zvc(answer) == (*number, false, *number == 6, false) && answer.active == 2 && t == before
    });
    accepted(&mut t, &[&message(1, 0)]);
    let idle = step(&mut table(1, &[(7, 0)]), &message(0, 0));
    refused && t.sent == 32 && t.queue[..2] == [1, 2] && idle.number == 5
}

/// Task 1 waits for a message from 2; 3 waits for any; a message of 3 for 1, and two of 4 for 2, wait; 6 is dormant.
pub(crate) fn mailed_table() -> Table {
    let mut t = table(1, &[(9, 1), (5, 1), (8, 1), (7, 1), (6, 1), (7, 0)]);
    accepted(&mut t, &[&[0x15, 2], &message(1, 1), &[0x15, 0], &message(2, 2), &message(2, 3)]);
    t
}

/// The rule of the messages, broken once or more in that table.
const MAIL_BREAKS: [fn(&mut Table); 15] = [
    |t| t.messages[0].sender = 2,
    |t| t.messages[0].to = 3,
    |t| t.messages.swap(0, 1),
    |t| t.messages[3].text[7] = 1,
    |t| t.messages[31].priority = 1,
    |t| t.sent = 2,
    |t| t.sent = 4,
    |t| t.sent = 33,
    |t| t.messages[1].to = 7,
    |t| t.messages[1].sender = 0,
    |t| t.messages[0].priority = 16,
    |t| t.tasks[2].state = State::WaitMessage(7),
    |t| t.tasks[3].mail.sender = 7,
    |t| t.tasks[5].mail.text[0] = 1,
    |t| t.tasks[15].mail.sender = 1,
];

/// Each of these gives 1; a waiting message from or for a dormant task, and a text without a sender, do not.
fn broken_messages() -> bool {
    let good = mailed_table();
    let mut asleep = good;
    (asleep.messages[1].to, asleep.messages[2].sender) = (6, 6);
    let mut nameless = good;
    nameless.tasks[3].mail.text = text(9);
    all_are_found(&good, &MAIL_BREAKS) && well_formed(&asleep) && well_formed(&nameless)
}

/// The message in an entry stands there over a pause, and is gone by the end of the run, also by 01 with V.
fn mail_is_gone() -> bool {
    let ends: [&[u8]; 4] = [&[0], &[1, 0x80, 9], &[1, 0, 0], &[1, 6, 0]];
    ends.iter().all(|end| {
        let mut t = table(1, &[(9, 1), (7, 1)]);
        accepted(&mut t, &[&[0x15, 2], &message(1, 8), &[2, 0, 1], &[0x80], &[9, 1, 0]]);
        let stood = t.task(1).mail == Mail { sender: 2, text: text(8) };
        accepted(&mut t, &[end]);
        stood && t.task(1).mail == Mail::default()
    })
}
