//! What a set of runs has met: kinds, numbers and ways of waking; and what it never met.

use model::bench::LONGEST_INPUT;
use model::configuration::fresh_from_start;
use model::records::cut;
use model::steps::step;
use model::table::{Answer, Mail, Message, State, Table, MESSAGES, SUBS, UNITS};

const KINDS: [(u8, &str); 14] = [
    (0x00, "terminate"),
    (0x01, "terminate, restart"),
    (0x02, "pause"),
    (0x03, "cancel a pause"),
    (0x04, "start if dormant"),
    (0x05, "start or queue"),
    (0x06, "enter a subprogram"),
    (0x07, "leave a subprogram"),
    (0x09, "flag"),
    (0x0A, "wait for flags"),
    (0x0B, "alarm"),
    (0x14, "send"),
    (0x15, "receive"),
    (0x80, "tick"),
];

/// The refusal numbers that a bench run can reach.
const REACHABLE: [usize; 13] = [2, 3, 4, 5, 6, 7, 8, 9, 12, 13, 14, 15, 16];
/// Those that it cannot, and why.
const UNREACHABLE: [(usize, &str); 3] = [
    (1, "a step leaves a well-formed table"),
    (10, "65,536 bytes are too few ticks for 2^40 ms"),
    (20, "nothing is written into a buffer"),
];

const WAYS: [&str; 17] = [
    "pause end",
    "pause cancelled",
    "due restart",
    "catch-up at once",
    "V restart",
    "flag, any, by 09",
    "flag, all, by 09",
    "flag by an alarm at a tick",
    "flag by 0B with count 0",
    "start waiter",
    "end waiter of 00",
    "end waiter of 01",
    "queued request begun by 00",
    "started by 04",
    "started by 05",
    "a subprogram handed over",
    "a message",
];

/// Two tasks of one priority that a tick woke, of which the first has the lower number.
const ORDERS: [&str; 3] = ["the first has a later time", "equal times", "only the first by flags"];

/// The kinds with an interval.
const TIMED: [u8; 3] = [0x01, 0x02, 0x0B];
/// Which counts are meant.
type Counts = fn(u8) -> bool;
/// The counts that each of them must meet in every unit.
const COUNTS: [(&str, Counts); 3] =
    [("count 0", |count| count == 0), ("count 255", |count| count == 255), ("a power of two", u8::is_power_of_two)];

/// What becomes of a restart with bit 6.
const SKIPS: [&str; 5] = ["skipped none", "skipped some", "count 0: at once", "no unit: V", "bits 7 and 6: refused"];

/// What becomes of a 06 or 07, and of the end of a run whose task holds a subprogram.
const SHARED: [&str; 14] = [
    "entered, it was free",
    "waits, its holder is ready",
    "waits, its holder is paused",
    "waits, its holder for flags",
    "waits, its holder for a run",
    "waits, its holder likewise",
    "left, and nobody waited",
    "handed to the only one",
    "handed to the higher",
    "handed to the later, higher",
    "handed to the first equal",
    "00 of a holder",
    "01 of a holder",
    "waits, its holder for a message",
];

/// What becomes of a 14 or 15, and of the message in the entry of a task whose run ends.
const MAILED: [&str; 17] = [
    "sent, wakes one of any",
    "sent, wakes one of its own",
    "sent, with 32 waiting",
    "sent to one of another",
    "sent to a dormant task",
    "sent to itself",
    "sent, waits before others",
    "sent, waits behind equals",
    "received, the only one",
    "received past another's",
    "received, later but higher",
    "received, first of equals",
    "received, over an older",
    "waits for any",
    "waits for one",
    "gone by 00",
    "gone by 01",
];

/// Who waits for each subprogram, in the order of arrival.
type Arrivals = [Vec<u8>; SUBS];

#[derive(Clone, Default)]
pub struct Coverage {
    runs: u64,
    bytes: u64,
    accepted: [u64; KINDS.len()],
    refused: [u64; KINDS.len()],
    numbers: [u64; 32],
    ways: [u64; WAYS.len()],
    orders: [u64; ORDERS.len()],
    /// Accepted intervals: by kind, then count, then unit.
    intervals: [[[u64; UNITS.len()]; COUNTS.len()]; TIMED.len()],
    skips: [u64; SKIPS.len()],
    shared: [u64; SHARED.len()],
    mailed: [u64; MAILED.len()],
    changed_by_refusal: u64,
}

impl Coverage {
    /// Goes through a run, step by step, on this program's own executive.
    pub fn watch(&mut self, input: &[u8]) {
        self.runs += 1;
        self.bytes += input.len() as u64;
        if input.len() > LONGEST_INPUT {
            self.numbers[12] += 1;
            return;
        }
        let (mut table, used) = match fresh_from_start(input) {
            Some(begun) => begun,
            None => {
                self.numbers[2] += 1;
                return;
            }
        };
        let mut rest = &input[used..];
        let mut arrivals = Arrivals::default();
        let mut letters = Vec::new();
        while !rest.is_empty() {
            match cut(rest) {
                Ok((record, more)) => {
                    let before = table;
                    let answer = self.watch_step(&mut table, record);
                    self.watch_shared(&before, &answer, record, &mut arrivals);
                    self.watch_mailed(&before, &table, &answer, record, &mut letters);
                    rest = more;
                }
                Err(stop) => {
                    self.numbers[stop as usize] += 1;
                    return;
                }
            }
        }
    }

    fn watch_step(&mut self, table: &mut Table, record: &[u8]) -> Answer {
        let before = *table;
        let answer: Answer = step(table, record);
        let kind = KINDS.iter().position(|(kind, _)| *kind == record[0]).expect("a carried kind");
        self.numbers[answer.number as usize] += 1;
        self.watch_skip(&answer, record);
        if answer.number != 0 {
            self.refused[kind] += 1;
            self.changed_by_refusal += u64::from(*table != before);
            return answer;
        }
        self.accepted[kind] += 1;
        self.watch_interval(record);
        self.watch_order(&before, table, record);
        for number in 1..=before.count {
            let (old, new) = (before.task(number).state, table.task(number).state);
            let caller = number == before.queue[0];
            if new == State::Ready && (old != State::Ready || caller) {
                if let Some(way) = way_of_waking(record, old) {
                    self.ways[way] += 1;
                }
            }
        }
        answer
    }

    /// Notes what became of a subprogram.
    fn watch_shared(&mut self, before: &Table, answer: &Answer, record: &[u8], arrivals: &mut Arrivals) {
        match (answer.number, record) {
            (0, [0x06, number]) => {
                let holder = before.subs[*number as usize].holder;
                let way = if holder == 0 { 0 } else { way_of_waiting(before.task(holder).state) };
                self.shared[way] += 1;
                if holder != 0 {
                    arrivals[*number as usize].push(before.queue[0]);
                }
            }
            (0, [0x07, number]) => {
                let sub = &before.subs[*number as usize];
                let line = &mut arrivals[*number as usize];
                ways_of_handing(before, &sub.line[..sub.waiting as usize], line).for_each(|way| self.shared[way] += 1);
                line.retain(|waiter| *waiter != sub.line[0]);
            }
            (15, [0x00, ..]) => self.shared[11] += 1,
            (15, _) => self.shared[12] += 1,
            _ => {}
        }
    }

    /// Notes what became of a message; `letters` are those that wait, in the order of arrival.
    fn watch_mailed(
        &mut self,
        before: &Table,
        after: &Table,
        answer: &Answer,
        record: &[u8],
        letters: &mut Vec<Message>,
    ) {
        if answer.number != 0 {
            return;
        }
        let caller = before.queue[0];
        let met = match *record {
            [0x14, to, ..] => {
                letters.extend(posted(before, after));
                ways_of_sending(before, after, to)
            }
            [0x15, from] => {
                let taken = before.waiting().iter().find(|message| message.fits(caller, from));
                let met = ways_of_receiving(before, taken, from, letters);
                if let Some(at) = letters.iter().position(|letter| Some(letter) == taken) {
                    letters.remove(at);
                }
                met
            }
            [0x00 | 0x01, ..] if before.task(caller).mail != Mail::default() => {
                vec![(15, record[0] == 0x00), (16, record[0] == 0x01)]
            }
            _ => return,
        };
        met.into_iter().for_each(|(way, met)| self.mailed[way] += u64::from(met));
    }

    /// Notes each two of one priority whom a tick woke and whose order says something.
    fn watch_order(&mut self, before: &Table, after: &Table, record: &[u8]) {
        if record[0] != 0x80 {
            return;
        }
        let woke =
            |number: &u8| before.task(*number).state != State::Ready && after.task(*number).state == State::Ready;
        let woken: Vec<u8> = (1..=before.count).filter(woke).collect();
        for (at, first) in woken.iter().enumerate() {
            for second in &woken[at + 1..] {
                let order = match (before.task(*first).state.time(), before.task(*second).state.time()) {
                    _ if after.task(*first).priority != after.task(*second).priority => continue,
                    (Some(first), Some(second)) if first > second => 0,
                    (Some(first), Some(second)) if first == second => 1,
                    (None, Some(_)) => 2,
                    _ => continue,
                };
                self.orders[order] += 1;
            }
        }
    }

    /// Notes a restart with bit 6.
    fn watch_skip(&mut self, answer: &Answer, record: &[u8]) {
        let count = match *record {
            [0x01, parameter, count] if parameter & 0x40 != 0 => count,
            _ => return,
        };
        match answer.number {
            6 => self.skips[4] += 1,
            0 if answer.v => self.skips[3] += 1,
            0 if count == 0 => self.skips[2] += 1,
            0 => self.skips[usize::from(answer.skipped > 0)] += 1,
            _ => {}
        }
    }

    /// Notes the unit and count of an accepted interval.
    fn watch_interval(&mut self, record: &[u8]) {
        if let Some(kind) = TIMED.iter().position(|kind| *kind == record[0]) {
            let unit = usize::from(record[1] & 7);
            for (units, (_, is)) in self.intervals[kind].iter_mut().zip(COUNTS) {
                if let Some(met) = units.get_mut(unit) {
                    *met += u64::from(is(record[2]));
                }
            }
        }
    }

    pub fn add(&mut self, other: &Coverage) {
        fn sum(to: &mut [u64], from: &[u64]) {
            to.iter_mut().zip(from).for_each(|(to, from)| *to += from);
        }
        self.runs += other.runs;
        self.bytes += other.bytes;
        self.changed_by_refusal += other.changed_by_refusal;
        sum(&mut self.accepted, &other.accepted);
        sum(&mut self.refused, &other.refused);
        sum(&mut self.numbers, &other.numbers);
        sum(&mut self.ways, &other.ways);
        sum(&mut self.orders, &other.orders);
        sum(&mut self.skips, &other.skips);
        sum(&mut self.shared, &other.shared);
        sum(&mut self.mailed, &other.mailed);
        let both = self.intervals.iter_mut().zip(&other.intervals);
        both.flat_map(|(to, from)| to.iter_mut().zip(from)).for_each(|(to, from)| sum(to, from));
    }

    /// Prints the table; true if everything was met that can be, and nothing that cannot.
    pub fn print(&self) -> bool {
        let mut missed = Vec::new();
        let steps: u64 = self.accepted.iter().chain(&self.refused).sum();
        println!("{} runs, {} bytes, {} steps", self.runs, self.bytes, steps);
        println!("kind                          accepted    refused");
        for (at, (kind, name)) in KINDS.iter().enumerate() {
            println!("{kind:02X} {name:<22} {:>12} {:>10}", self.accepted[at], self.refused[at]);
            note(&mut missed, self.accepted[at], || format!("kind {kind:02X} accepted"));
        }
        println!("number                             met");
        for number in REACHABLE {
            println!("{number:<25} {:>12}", self.numbers[number]);
            note(&mut missed, self.numbers[number], || format!("number {number}"));
        }
        for (number, why) in UNREACHABLE {
            println!("{number:<25} {:>12}  (out of a bench run's reach: {why})", self.numbers[number]);
        }
        println!("way of waking                      met");
        for (way, met) in WAYS.iter().zip(self.ways) {
            println!("{way:<27} {met:>10}");
            note(&mut missed, met, || format!("way of waking '{way}'"));
        }
        println!("two woken by a tick                met");
        for (what, met) in ORDERS.iter().zip(self.orders) {
            println!("{what:<27} {met:>10}");
            note(&mut missed, met, || format!("two woken by a tick, {what}"));
        }
        println!("restart with bit 6                 met");
        for (what, met) in SKIPS.iter().zip(self.skips) {
            println!("{what:<27} {met:>10}");
            note(&mut missed, met, || format!("restart with bit 6, {what}"));
        }
        println!("subprogram                         met");
        for (what, met) in SHARED.iter().zip(self.shared) {
            println!("{what:<27} {met:>10}");
            note(&mut missed, met, || format!("subprogram, {what}"));
        }
        println!("message                            met");
        for (what, met) in MAILED.iter().zip(self.mailed) {
            println!("{what:<27} {met:>10}");
            note(&mut missed, met, || format!("message, {what}"));
        }
        self.print_intervals(&mut missed);
        missed.iter().for_each(|what| println!("NEVER MET: {what}"));
        missed.is_empty() && self.nothing_impossible()
    }

    /// A line for each kind with an interval and each of the counts: how often in each unit.
    fn print_intervals(&self, missed: &mut Vec<String>) {
        println!("interval                   met in units 0 to {}", UNITS.len() - 1);
        for (kind, counts) in TIMED.iter().zip(&self.intervals) {
            for ((name, _), units) in COUNTS.iter().zip(counts) {
                let met: Vec<String> = units.iter().map(u64::to_string).collect();
                println!("{kind:02X} {name:<22}  {}", met.join(" "));
                for (unit, met) in units.iter().enumerate() {
                    note(missed, *met, || format!("{kind:02X}, unit {unit}, {name}"));
                }
            }
        }
    }

    /// False, and said so, where a step answered what no bench run can, or a refusal changed something.
    fn nothing_impossible(&self) -> bool {
        let met = UNREACHABLE.iter().any(|(number, _)| self.numbers[*number] > 0);
        if met || self.changed_by_refusal > 0 {
            println!("WRONG in the second program itself: an unreachable number or a changed table");
        }
        !met && self.changed_by_refusal == 0
    }
}

fn note(missed: &mut Vec<String>, met: u64, what: impl Fn() -> String) {
    if met == 0 {
        missed.push(what());
    }
}

/// The place in `WAYS` of an entry into the queue by an accepted step; `old` is the state before.
fn way_of_waking(record: &[u8], old: State) -> Option<usize> {
    match (record[0], old) {
        (0x80, State::Paused(_)) => Some(0),
        (0x03, State::Paused(_)) => Some(1),
        (0x80, State::Due(_)) => Some(2),
        (0x01, State::Ready) if record[1] & 7 > 5 => Some(4),
        (0x01, State::Ready) if record[1] & 0x80 == 0 && record[2] > 0 => Some(3),
        (0x09, State::WaitAny(_)) => Some(5),
        (0x09, State::WaitAll(_)) => Some(6),
        (0x80, State::WaitAny(_) | State::WaitAll(_)) => Some(7),
        (0x0B, State::WaitAny(_) | State::WaitAll(_)) => Some(8),
        (0x00, State::WaitStart) => Some(9),
        (0x00, State::WaitEnd) => Some(10),
        (0x01, State::WaitEnd) => Some(11),
        (0x00, State::Ready) => Some(12),
        (0x04, State::Dormant) => Some(13),
        (0x05, State::Dormant) => Some(14),
        (0x07, State::WaitSub(_)) => Some(15),
        (0x14, State::WaitMessage(_)) => Some(16),
        _ => None,
    }
}

/// The place in `SHARED` of a wait for a subprogram whose holder is in this state.
fn way_of_waiting(holder: State) -> usize {
    match holder {
        State::Ready => 1,
        State::Paused(_) => 2,
        State::WaitAny(_) | State::WaitAll(_) => 3,
        State::WaitStart | State::WaitEnd => 4,
        State::WaitSub(_) => 5,
        State::WaitMessage(_) => 13,
        State::Dormant | State::Due(_) => unreachable!("a holder's run has not ended"),
    }
}

/// The places in `SHARED` of the leaving of a subprogram: its line as it stands, and by arrival.
fn ways_of_handing(table: &Table, line: &[u8], arrived: &[u8]) -> impl Iterator<Item = usize> {
    let priority = |task: &u8| table.task(*task).priority;
    let first = line.first().copied().unwrap_or(0);
    let met = [
        (6, line.is_empty()),
        (7, line.len() == 1),
        (8, line.iter().any(|other| priority(other) < priority(&first))),
        (9, arrived.first().map_or(false, |other| priority(other) < priority(&first))),
        (10, line.iter().skip(1).any(|other| priority(other) == priority(&first))),
    ];
    met.into_iter().filter(|(_, met)| *met).map(|(way, _)| way)
}

/// Places in `MAILED`, and whether each was met.
type Met = Vec<(usize, bool)>;

/// The message that a send left waiting, if it did.
fn posted(before: &Table, after: &Table) -> Option<Message> {
    let place = before.messages.iter().zip(&after.messages).position(|(old, new)| old != new);
    place.filter(|_| after.sent > before.sent).map(|place| after.messages[place])
}

/// The places in `MAILED` of an accepted send.
fn ways_of_sending(before: &Table, after: &Table, to: u8) -> Met {
    let sender = before.queue[0];
    let priority = before.task(sender).priority;
    let state = before.task(to).state;
    let woke = after.sent == before.sent;
    vec![
        (0, woke && state == State::WaitMessage(0)),
        (1, woke && state == State::WaitMessage(sender)),
        (2, woke && before.sent as usize == MESSAGES),
        (3, !woke && matches!(state, State::WaitMessage(_))),
        (4, state == State::Dormant),
        (5, to == sender),
        (6, !woke && before.waiting().iter().any(|message| message.priority < priority)),
        (7, !woke && before.waiting().iter().any(|message| message.priority == priority)),
    ]
}

/// The places in `MAILED` of an accepted receive: what it takes, and all that wait, by arrival.
fn ways_of_receiving(before: &Table, taken: Option<&Message>, from: u8, letters: &[Message]) -> Met {
    let caller = before.queue[0];
    let fit: Vec<&Message> = letters.iter().filter(|message| message.fits(caller, from)).collect();
    let ahead = |message: &&Message| taken.map_or(false, |taken| message.priority > taken.priority);
    let equal = |message: &&&Message| taken.map_or(false, |taken| message.priority == taken.priority);
    vec![
        (8, fit.len() == 1),
        (9, taken.is_some() && before.waiting().iter().any(|message| message.to != caller && ahead(&message))),
        (10, fit.first().zip(taken).map_or(false, |(first, taken)| first.priority < taken.priority)),
        (11, fit.iter().filter(equal).count() > 1),
        (12, before.task(caller).mail != Mail::default()),
        (13, taken.is_none() && from == 0),
        (14, taken.is_none() && from != 0),
    ]
}
