//! The images that are mended: seeded walks through runs, whose tables are damaged, broken rule by rule, or left as
//! they are; and random bytes.

use crate::tables::{broken, chained, edited};
use model::configuration::fresh_from_start;
use model::image::{encode, LENGTH};
use model::records::records_of;
use model::runs::{run, Rng};
use model::steps::step;
use model::table::{Message, State, Table, LAST_CLOCK, MESSAGES, SUBS, TASKS};

/// The most tables of one run, and the most steps between two.
const OF_A_RUN: usize = 40;
const APART: usize = 4;
/// The most bytes of an image that are changed.
const CHANGED: usize = 40;
/// Where the numbers that stand alone, and the clock among them, are in an image.
const COUNT: usize = 433;
const GRANULE: usize = 434;
const CLOCK: usize = 436;

/// What is handed to a mender, and the records that are tried from what it gives.
pub struct Given {
    pub image: Vec<u8>,
    /// The length of the list's buffer.
    pub room: usize,
    pub records: Vec<Vec<u8>>,
}

/// The images of one run.
pub struct Walk {
    rng: Rng,
    table: Table,
    records: Vec<Vec<u8>>,
    taken: usize,
    left: usize,
}

impl Walk {
    pub fn new(seed: u64, index: u64) -> Walk {
        let rng = Rng::new(!seed, index);
        let bytes = run(seed, index);
        match fresh_from_start(&bytes) {
            Some((table, used)) => {
                let records = records_of(&bytes[used..]).into_iter().map(<[u8]>::to_vec).collect();
                Walk { rng, table, records, taken: 0, left: OF_A_RUN }
            }
            None => Walk { rng, table: Table::default(), records: Vec::new(), taken: 0, left: 0 },
        }
    }
}

impl Iterator for Walk {
    type Item = Given;

    fn next(&mut self) -> Option<Given> {
        if self.left == 0 || self.taken >= self.records.len() {
            return None;
        }
        self.left -= 1;
        for _ in 0..=self.rng.below(APART) {
            if let Some(record) = self.records.get(self.taken) {
                step(&mut self.table, record);
                self.taken += 1;
            }
        }
        if self.rng.one_in(4) {
            self.table = edited(&self.table, &mut self.rng);
        }
        let rng = &mut self.rng;
        let table = if rng.one_in(3) { chained(&self.table, rng) } else { self.table };
        let mut image = spoilt(&table, rng);
        if rng.one_in(100) {
            image.resize(rng.pick(&[0, 1, LENGTH - 1, LENGTH + 1, 2 * LENGTH]), 0);
        }
        let room = rng.pick(&[33, 33, 33, 37, 34, 33, 33, 33]) - if rng.one_in(50) { 2 + rng.below(32) } else { 0 };
        // records of every kind: the run's own from a place on, and ticks
        let from = rng.below(self.records.len());
        let mut records: Vec<Vec<u8>> = self.records[from..].iter().take(30).cloned().collect();
        records.push(vec![0x80]);
        Some(Given { image, room, records })
    }
}

/// An image of a table that is spoilt in some way, or not.
fn spoilt(table: &Table, rng: &mut Rng) -> Vec<u8> {
    let mut image = encode(table);
    match rng.below(16) {
        0 => {}
        1..=4 => change(&mut image, rng, 0..LENGTH),
        // one entry, the pool, or what stands behind it
        5 => {
            let from = 26 * rng.below(TASKS);
            change(&mut image, rng, from..from + 26);
        }
        6 => change(&mut image, rng, 704..896),
        7 => change(&mut image, rng, 896..LENGTH),
        8..=10 => image = encode(&broken(table, rng)),
        11 => {
            image = encode(&broken(table, rng));
            change(&mut image, rng, 0..LENGTH);
        }
        12..=14 => {
            let mut next = *table;
            for _ in 0..1 + rng.below(4) {
                rng.pick(&AIMED)(&mut next, rng);
            }
            image = encode(&next);
        }
        _ => image = random(rng),
    }
    image
}

/// One to forty bytes of a part of the image are changed: by one, by one bit, to a small number, or to any.
fn change(image: &mut [u8], rng: &mut Rng, part: std::ops::Range<usize>) {
    let many = rng.pick(&[1, 3, 10, CHANGED]);
    for _ in 0..1 + rng.below(many) {
        let at = part.start + rng.below(part.len());
        image[at] = match rng.below(5) {
            0 => image[at].wrapping_add(1),
            1 => image[at].wrapping_sub(1),
            2 => image[at] ^ 1 << rng.below(8),
            3 => rng.below(TASKS + 2) as u8,
            _ => rng.byte(),
        };
    }
}

/// Any bytes, or any small ones; the numbers that 17 is for mostly in their range.
fn random(rng: &mut Rng) -> Vec<u8> {
    let bound = rng.pick(&[256, 256, TASKS + 2, 3]);
    let mut image: Vec<u8> = (0..LENGTH).map(|_| rng.below(bound) as u8).collect();
    if !rng.one_in(8) {
        image[COUNT] = 1 + rng.below(TASKS) as u8;
        image[GRANULE] |= 1;
        let clock = rng.below(LAST_CLOCK as usize + 1) as u64;
        image[CLOCK..CLOCK + 8].copy_from_slice(&clock.to_be_bytes());
    }
    image
}

/// Edits that break what hangs together, one with the other.
type Edit = fn(&mut Table, &mut Rng);
const AIMED: [Edit; 7] = [sick, sick_holder, sick_target, second_link, second_link, other_state, early_message];

fn any(table: &Table, rng: &mut Rng) -> u8 {
    1 + rng.below(table.count as usize) as u8
}

/// Some entry breaks a rule by itself.
fn sick(table: &mut Table, rng: &mut Rng) {
    let number = any(table, rng);
    make_sick(table, number, rng);
}

fn make_sick(table: &mut Table, number: u8, rng: &mut Rng) {
    let (clock, count) = (table.clock, table.count);
    let task = table.task_mut(number);
    match rng.below(8) {
        0 => task.own = 16,
        1 => task.priority = 16,
        2 => task.started = clock + 1,
        3 => task.mail.sender = count + 1,
        4 => task.state = State::Paused(clock),
        5 => task.state = State::WaitAll(0),
        6 => task.state = State::WaitSub(SUBS as u8),
        _ => task.state = State::Dormant,
    }
}

/// Who holds a subprogram breaks a rule, or somebody who does.
fn sick_holder(table: &mut Table, rng: &mut Rng) {
    let holders: Vec<u8> = table.subs.iter().map(|sub| sub.holder).filter(|holder| *holder != 0).collect();
    if !holders.is_empty() {
        let number = rng.pick(&holders).min(table.count);
        make_sick(table, number, rng);
    }
}

/// Whose start is asked for breaks a rule.
fn sick_target(table: &mut Table, rng: &mut Rng) {
    if table.asked > 0 {
        let number = table.pool[rng.below(table.asked as usize)].task;
        make_sick(table, number.max(1), rng);
    }
}

/// A link more to somebody who waits, or to anybody: of a run, of a request, or of a request that has one.
fn second_link(table: &mut Table, rng: &mut Rng) {
    let waits = |number: &u8| matches!(table.task(*number).state, State::WaitStart | State::WaitEnd);
    let waiters: Vec<u8> = (1..=table.count).filter(waits).collect();
    let waiter = if waiters.is_empty() || rng.one_in(4) { any(table, rng) } else { rng.pick(&waiters) };
    let place = rng.below((table.asked as usize).max(1));
    match rng.below(4) {
        0 => table.pool[place].start_waiter = waiter,
        1 => table.pool[place].end_waiter = waiter,
        _ => {
            let number = any(table, rng);
            table.task_mut(number).end_waiter = waiter;
        }
    }
}

/// A task is in another state, so that it is in no line, and nobody names it, or somebody does who should not.
fn other_state(table: &mut Table, rng: &mut Rng) {
    let number = any(table, rng);
    let sub = rng.below(SUBS) as u8;
    table.task_mut(number).state =
        rng.pick(&[State::Ready, State::WaitStart, State::WaitEnd, State::WaitSub(sub), State::Dormant]);
}

/// A message for somebody who waits for one, or for anybody, from anybody or nobody, behind the others or far behind.
fn early_message(table: &mut Table, rng: &mut Rng) {
    let waits = |number: &u8| matches!(table.task(*number).state, State::WaitMessage(_));
    let waiter = (1..=table.count).find(waits);
    let to = waiter.unwrap_or_else(|| any(table, rng));
    let place = rng.pick(&[table.sent as usize, MESSAGES]).min(MESSAGES - 1);
    let sender = rng.below(table.count as usize + 2) as u8;
    table.messages[place] = Message { to, sender, priority: rng.below(17) as u8, text: [rng.byte(); 8] };
}
