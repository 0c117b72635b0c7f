//! The table's image by docs/TABLE.md, written apart from the proved code.

use crate::table::{Mail, Message, Request, State, Sub, Table, Task, TASKS};

pub const LENGTH: usize = 1_555;
/// Where the numbers that the states wait for begin, and the messages in the entries; and their lengths.
const ENTRY: usize = 26;
const AWAITED: usize = 898;
const MAILS: usize = 1_411;
const MAIL: usize = 9;
/// What a byte that is no state's is a wait for.
const NO_SUB: u8 = 255;

/// The bytes of a task's entry in an image: its fields, what its state waits for, and its mail.
pub fn block(image: &[u8], number: u8) -> [&[u8]; 3] {
    let place = number as usize - 1;
    let part = |from: usize, length: usize| &image[from + place * length..][..length];
    [part(0, ENTRY), part(AWAITED, 1), part(MAILS, MAIL)]
}

/// The image of a table.
pub fn encode(table: &Table) -> Vec<u8> {
    let mut image = Vec::with_capacity(LENGTH);
    for task in &table.tasks {
        encode_task(&mut image, task);
    }
    image.extend_from_slice(&table.queue);
    image.extend_from_slice(&[table.queued, table.count, table.granule, table.asked]);
    image.extend_from_slice(&table.clock.to_be_bytes());
    image.extend_from_slice(&table.flags.to_be_bytes());
    for time in table.alarms {
        image.extend_from_slice(&time.to_be_bytes());
    }
    for request in &table.pool {
        image.extend_from_slice(&[request.task, request.priority]);
        image.extend_from_slice(&request.argument.to_be_bytes());
        image.extend_from_slice(&[request.start_waiter, request.end_waiter]);
    }
    image.extend_from_slice(&table.levels.to_be_bytes());
    image.extend(table.tasks.iter().map(|task| awaited(task.state)));
    for sub in &table.subs {
        image.extend_from_slice(&[sub.holder, sub.waiting]);
        image.extend_from_slice(&sub.line);
    }
    for message in &table.messages {
        image.extend_from_slice(&[message.to, message.sender, message.priority]);
        image.extend_from_slice(&message.text);
    }
    image.push(table.sent);
    for task in &table.tasks {
        image.push(task.mail.sender);
        image.extend_from_slice(&task.mail.text);
    }
    image
}

/// The number that a state waits for: a subprogram's, or a sender's, else 0.
fn awaited(state: State) -> u8 {
    match state {
        State::WaitSub(number) | State::WaitMessage(number) => number,
        _ => 0,
    }
}

fn encode_task(image: &mut Vec<u8>, task: &Task) {
    let (state, time, mask) = match task.state {
        State::Dormant => (0, 0, 0),
        State::Ready => (1, 0, 0),
        State::Paused(time) => (2, time, 0),
        State::Due(time) => (3, time, 0),
        State::WaitAny(mask) => (4, 0, mask),
        State::WaitAll(mask) => (5, 0, mask),
        State::WaitStart => (6, 0, 0),
        State::WaitEnd => (7, 0, 0),
        State::WaitSub(_) => (8, 0, 0),
        State::WaitMessage(_) => (9, 0, 0),
    };
    image.extend_from_slice(&[task.own, state]);
    image.extend_from_slice(&u64::to_be_bytes(time));
    image.extend_from_slice(&u32::to_be_bytes(mask));
    image.push(task.priority);
    image.extend_from_slice(&task.argument.to_be_bytes());
    image.extend_from_slice(&task.started.to_be_bytes());
    image.push(task.end_waiter);
}

/// The table that some bytes are the image of, well formed or not; `None` where they are no image.
pub fn decode(image: &[u8]) -> Option<Table> {
    load(image).filter(|table| encode(table) == image)
}

/// The table that bytes of an image's length hold: what a state does not use is passed over, and a byte that is no
/// state's is a wait for a subprogram that there is not.
pub fn load(image: &[u8]) -> Option<Table> {
    if image.len() != LENGTH {
        return None;
    }
    let mut bytes = Bytes(image);
    let mut table = Table::default();
    for task in &mut table.tasks {
        *task = load_task(&mut bytes);
    }
    table.queue = bytes.take();
    [table.queued, table.count, table.granule, table.asked] = bytes.take();
    table.clock = u64::from_be_bytes(bytes.take());
    table.flags = u32::from_be_bytes(bytes.take());
    for time in &mut table.alarms {
        *time = u64::from_be_bytes(bytes.take());
    }
    for place in &mut table.pool {
        *place = load_request(&mut bytes);
    }
    table.levels = u16::from_be_bytes(bytes.take());
    load_later(&mut bytes, &mut table);
    Some(table)
}

/// What stands behind the word of the ready levels: the subprograms and the messages.
fn load_later(bytes: &mut Bytes, table: &mut Table) {
    let numbers: [u8; TASKS] = bytes.take();
    for (task, number) in table.tasks.iter_mut().zip(numbers) {
        match &mut task.state {
            State::WaitSub(NO_SUB) => {}
            State::WaitSub(awaited) | State::WaitMessage(awaited) => *awaited = number,
            _ => {}
        }
    }
    for sub in &mut table.subs {
        let [holder, waiting] = bytes.take();
        *sub = Sub { holder, waiting, line: bytes.take() };
    }
    for message in &mut table.messages {
        let [to, sender, priority] = bytes.take();
        *message = Message { to, sender, priority, text: bytes.take() };
    }
    [table.sent] = bytes.take();
    for task in &mut table.tasks {
        let [sender] = bytes.take();
        task.mail = Mail { sender, text: bytes.take() };
    }
}

fn load_task(bytes: &mut Bytes) -> Task {
    let [own, state] = bytes.take();
    let time = u64::from_be_bytes(bytes.take());
    let mask = u32::from_be_bytes(bytes.take());
    let state = match state {
        0 => State::Dormant,
        1 => State::Ready,
        2 => State::Paused(time),
        3 => State::Due(time),
        4 => State::WaitAny(mask),
        5 => State::WaitAll(mask),
        6 => State::WaitStart,
        7 => State::WaitEnd,
        // its number stands behind the entries
        8 => State::WaitSub(0),
        9 => State::WaitMessage(0),
        _ => State::WaitSub(NO_SUB),
    };
    let [priority] = bytes.take();
    let argument = u16::from_be_bytes(bytes.take());
    let started = u64::from_be_bytes(bytes.take());
    let [end_waiter] = bytes.take();
    Task { own, state, priority, argument, started, end_waiter, mail: Mail::default() }
}

fn load_request(bytes: &mut Bytes) -> Request {
    let [task, priority] = bytes.take();
    let argument = u16::from_be_bytes(bytes.take());
    let [start_waiter, end_waiter] = bytes.take();
    Request { task, priority, argument, start_waiter, end_waiter }
}

/// What is still to be read of an image.
struct Bytes<'a>(&'a [u8]);

impl Bytes<'_> {
    fn take<const N: usize>(&mut self) -> [u8; N] {
        let (taken, rest) = self.0.split_at(N);
        self.0 = rest;
        taken.try_into().expect("N bytes were taken")
    }
}
