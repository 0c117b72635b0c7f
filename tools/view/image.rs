//! A table, read from its image; any bytes are read, and what they break is for the rules to tell.

use crate::places::*;

/// What a task is doing. A state byte that no table has is kept as it is.
#[derive(Clone, Copy, PartialEq, Eq)]
pub enum State {
    Dormant,
    Ready,
    Paused(u64),
    Due(u64),
    Any(u32),
    All(u32),
    AwaitStart,
    AwaitEnd,
    AwaitSub(u8),
    AwaitMessage(u8),
    Stray(u8),
}

/// A task's entry; time, mask and the number that it awaits also where its state has none.
#[derive(Clone)]
pub struct Task {
    pub own: u8,
    pub state: State,
    pub time: u64,
    pub mask: u32,
    pub awaited: u8,
    pub priority: u8,
    pub argument: u16,
    pub start: u64,
    pub end_waiter: u8,
    pub mail: Mail,
}

/// A message in a task's entry: its sender, 0 where there is none, and its text as a number.
#[derive(Clone, Copy, PartialEq, Eq)]
pub struct Mail {
    pub sender: u8,
    pub text: u64,
}

/// A message that waits, or a place for one.
#[derive(Clone, Copy, PartialEq, Eq)]
pub struct Message {
    pub to: u8,
    pub sender: u8,
    pub priority: u8,
    pub text: u64,
}

/// A place of the pool.
#[derive(Clone)]
pub struct Request {
    pub target: u8,
    pub priority: u8,
    pub argument: u16,
    pub start_waiter: u8,
    pub end_waiter: u8,
}

/// A controlled subprogram, with all places of its line.
#[derive(Clone)]
pub struct Sub {
    pub holder: u8,
    pub waiting: u8,
    pub places: Vec<u8>,
}

/// The whole table: all entries, places, alarms, subprograms and messages, also those that are free.
#[derive(Clone)]
pub struct Table {
    pub tasks: Vec<Task>,
    pub queue: Vec<u8>,
    pub ready: u8,
    pub count: u8,
    pub granule: u8,
    pub queued: u8,
    pub clock: u64,
    pub flags: u32,
    pub alarms: Vec<u64>,
    pub pool: Vec<Request>,
    pub levels: u16,
    pub subs: Vec<Sub>,
    pub messages: Vec<Message>,
    pub sent: u8,
}

pub fn read(image: &[u8]) -> Table {
    Table {
        tasks: (0..ENTRIES.many).map(|i| task(image, i)).collect(),
        queue: (0..QUEUE.many).map(|i| QUEUE.part(i, QUEUE_TASK).byte(image)).collect(),
        ready: READY.byte(image),
        count: COUNT.byte(image),
        granule: GRANULE.byte(image),
        queued: QUEUED.byte(image),
        clock: CLOCK.number(image),
        flags: FLAGS.number(image) as u32,
        alarms: (0..ALARMS.many).map(|i| ALARMS.part(i, ALARM_TIME).number(image)).collect(),
        pool: (0..POOL.many).map(|i| request(image, i)).collect(),
        levels: LEVELS.number(image) as u16,
        subs: (0..SUBS.many).map(|i| sub(image, i)).collect(),
        messages: (0..MESSAGES.many).map(|i| message(image, i)).collect(),
        sent: SENT.byte(image),
    }
}

fn task(image: &[u8], i: usize) -> Task {
    let number = |part| ENTRIES.part(i, part).number(image);
    let (time, mask) = (number(TIME), number(MASK) as u32);
    let awaited = AWAITED.part(i, AWAITED_NUMBER).byte(image);
    Task {
        own: number(OWN) as u8,
        state: state(number(STATE) as u8, time, mask, awaited),
        time,
        mask,
        awaited,
        priority: number(PRIORITY) as u8,
        argument: number(ARGUMENT) as u16,
        start: number(START),
        end_waiter: number(END_WAITER) as u8,
        mail: Mail { sender: MAIL.part(i, MAIL_SENDER).byte(image), text: MAIL.part(i, MAIL_TEXT).number(image) },
    }
}

fn state(byte: u8, time: u64, mask: u32, awaited: u8) -> State {
    match byte {
        0 => State::Dormant,
        1 => State::Ready,
        2 => State::Paused(time),
        3 => State::Due(time),
        4 => State::Any(mask),
        5 => State::All(mask),
        6 => State::AwaitStart,
        7 => State::AwaitEnd,
        8 => State::AwaitSub(awaited),
        9 => State::AwaitMessage(awaited),
        stray => State::Stray(stray),
    }
}

fn sub(image: &[u8], i: usize) -> Sub {
    let byte = |part| SUBS.part(i, part).byte(image);
    Sub { holder: byte(HOLDER), waiting: byte(WAITING), places: (0..LINE).map(|i| byte(line_place(i))).collect() }
}

fn message(image: &[u8], i: usize) -> Message {
    let number = |part| MESSAGES.part(i, part).number(image);
    Message { to: number(TO) as u8, sender: number(SENDER) as u8, priority: number(SENT_AT) as u8, text: number(TEXT) }
}

fn request(image: &[u8], i: usize) -> Request {
    let number = |part| POOL.part(i, part).number(image);
    Request {
        target: number(TARGET) as u8,
        priority: number(RUN_PRIORITY) as u8,
        argument: number(RUN_ARGUMENT) as u16,
        start_waiter: number(START_WAITER) as u8,
        end_waiter: number(RUN_END_WAITER) as u8,
    }
}

impl Sub {
    /// Those that wait, the next first.
    pub fn line(&self) -> &[u8] {
        &self.places[..usize::from(self.waiting).min(LINE)]
    }
}

impl Mail {
    pub fn is_none(self) -> bool {
        self == Mail { sender: 0, text: 0 }
    }
}

impl Message {
    /// Whether it is for this task, and from the sender that it waits for, 0 for any.
    pub fn fits(&self, task: u8, sender: u8) -> bool {
        self.to == task && (sender == 0 || sender == self.sender)
    }

    pub fn is_none(self) -> bool {
        self == Message { to: 0, sender: 0, priority: 0, text: 0 }
    }
}

impl Table {
    /// The entry of a task, where the number is one.
    pub fn task(&self, number: u8) -> Option<&Task> {
        self.tasks.get(usize::from(number).checked_sub(1)?)
    }

    /// The state of a task; that of no task is dormant.
    pub fn state(&self, number: u8) -> State {
        self.task(number).map_or(State::Dormant, |task| task.state)
    }

    /// The tasks' numbers.
    pub fn numbers(&self) -> std::ops::RangeInclusive<u8> {
        1..=self.count.min(ENTRIES.many as u8)
    }

    /// The ready queue, head first.
    pub fn line(&self) -> &[u8] {
        &self.queue[..usize::from(self.ready).min(QUEUE.many)]
    }

    /// A subprogram, where the number is one.
    pub fn sub(&self, number: u8) -> Option<&Sub> {
        self.subs.get(usize::from(number))
    }

    /// The queued requests, in the order of asking.
    pub fn requests(&self) -> &[Request] {
        &self.pool[..usize::from(self.queued).min(POOL.many)]
    }

    /// The messages that wait, first to last.
    pub fn waiting(&self) -> &[Message] {
        &self.messages[..usize::from(self.sent).min(MESSAGES.many)]
    }

    /// The active task, 0 when idle.
    pub fn active(&self) -> u8 {
        self.line().first().copied().unwrap_or(0)
    }
}
