//! The table of document 01 and its parts, and the answer of a step.

pub const TASKS: usize = 16;
pub const FLAGS: usize = 32;
pub const PLACES: usize = 32;
pub const SUBS: usize = 8;
pub const MESSAGES: usize = 32;
pub const LAST_CLOCK: u64 = 1 << 40;
pub const LONGEST: u64 = 22_032_000_000;
pub const UNITS: [u64; 6] = [1, 10, 1_000, 60_000, 3_600_000, 86_400_000];

/// What a task is doing; exactly one of these.
#[derive(Clone, Copy, PartialEq, Eq, Debug, Default)]
pub enum State {
    #[default]
    Dormant,
    Ready,
    Paused(u64),
    Due(u64),
    WaitAny(u32),
    WaitAll(u32),
    WaitStart,
    WaitEnd,
    /// For the controlled subprogram of this number.
    WaitSub(u8),
    /// For a message from this task, or from any, 0.
    WaitMessage(u8),
}

impl State {
    /// The time that a task waits for, if it waits for one.
    pub fn time(self) -> Option<u64> {
        match self {
            State::Paused(time) | State::Due(time) => Some(time),
            _ => None,
        }
    }
}

/// The text of a message.
pub type Text = [u8; 8];

/// A message that was put in a task's entry (document 02, A8); all zero where there is none.
#[derive(Clone, Copy, PartialEq, Eq, Debug, Default)]
pub struct Mail {
    pub sender: u8,
    pub text: Text,
}

/// A message that waits, with its sender's priority when it was sent; all zero where a place is free.
#[derive(Clone, Copy, PartialEq, Eq, Debug, Default)]
pub struct Message {
    pub to: u8,
    pub sender: u8,
    pub priority: u8,
    pub text: Text,
}

impl Message {
    /// Whether it is for this task, and from the sender that it wants, 0 for any.
    pub fn fits(&self, task: u8, sender: u8) -> bool {
        self.to == task && (sender == 0 || sender == self.sender)
    }
}

/// One task's entry. `end_waiter` is the task that waits for this run's end, 0 for nobody.
#[derive(Clone, Copy, PartialEq, Eq, Debug, Default)]
pub struct Task {
    pub own: u8,
    pub state: State,
    pub priority: u8,
    pub argument: u16,
    pub started: u64,
    pub end_waiter: u8,
    pub mail: Mail,
}

/// One place of the pool; all zero when free.
#[derive(Clone, Copy, PartialEq, Eq, Debug, Default)]
pub struct Request {
    pub task: u8,
    pub priority: u8,
    pub argument: u16,
    pub start_waiter: u8,
    pub end_waiter: u8,
}

/// A controlled subprogram (document 02, A4): who holds it, 0 for nobody, and the line of those that wait for it.
#[derive(Clone, Copy, PartialEq, Eq, Debug, Default)]
pub struct Sub {
    pub holder: u8,
    pub waiting: u8,
    pub line: [u8; TASKS],
}

/// The whole table. Task n stands at index n - 1; an alarm of 0 is not running.
#[derive(Clone, Copy, PartialEq, Eq, Debug, Default)]
pub struct Table {
    pub count: u8,
    pub granule: u8,
    pub clock: u64,
    pub tasks: [Task; TASKS],
    pub queue: [u8; TASKS],
    pub queued: u8,
    pub flags: u32,
    pub alarms: [u64; FLAGS],
    pub pool: [Request; PLACES],
    pub asked: u8,
    /// Bit p is set exactly if some ready task has priority p.
    pub levels: u16,
    pub subs: [Sub; SUBS],
    pub messages: [Message; MESSAGES],
    pub sent: u8,
}

/// What a step answers.
#[derive(Clone, Copy, PartialEq, Eq, Debug, Default)]
pub struct Answer {
    pub number: u8,
    pub z: bool,
    pub v: bool,
    pub c: bool,
    pub active: u8,
    pub argument: u16,
    /// Grid times that a restart passed over.
    pub skipped: u64,
    /// Ready tasks that were passed over by those that entered.
    pub walked: u8,
    /// Of the message that a receive handed out.
    pub sender: u8,
    pub text: Text,
}

impl Table {
    pub fn task(&self, number: u8) -> &Task {
        &self.tasks[number as usize - 1]
    }

    pub fn task_mut(&mut self, number: u8) -> &mut Task {
        &mut self.tasks[number as usize - 1]
    }

    /// Whether a task that waits for flags has its condition now.
    pub fn condition(&self, state: State) -> bool {
        match state {
            State::WaitAny(mask) => self.flags & mask != 0,
            State::WaitAll(mask) => self.flags & mask == mask,
            _ => false,
        }
    }

    /// The word of the ready levels, by the entries.
    pub fn ready_levels(&self) -> u16 {
        let ready = self.tasks.iter().filter(|task| task.state == State::Ready);
        ready.fold(0, |levels, task| levels | 1u16.checked_shl(task.priority.into()).unwrap_or(0))
    }

    /// What the lamp shows, by the entries: the highest ready priority; dark when idle.
    pub fn lamp(&self) -> Option<u8> {
        let ready = self.tasks.iter().filter(|task| task.state == State::Ready);
        ready.map(|task| task.priority).max()
    }

    /// Whether a task holds some subprogram.
    pub fn holds_any(&self, task: u8) -> bool {
        self.subs.iter().any(|sub| sub.holder == task)
    }

    /// The messages that wait, first to last.
    pub fn waiting(&self) -> &[Message] {
        &self.messages[..self.sent as usize]
    }

    /// Puts a message behind all of equal or higher priority.
    pub fn post(&mut self, message: Message) {
        let place = self.waiting().iter().position(|other| other.priority < message.priority);
        let place = place.unwrap_or(self.sent as usize);
        self.messages.copy_within(place..self.sent as usize, place + 1);
        self.messages[place] = message;
        self.sent += 1;
    }

    /// The first message that fits, taken out.
    pub fn take_message(&mut self, task: u8, sender: u8) -> Option<Message> {
        let sent = self.sent as usize;
        let place = self.waiting().iter().position(|message| message.fits(task, sender))?;
        let message = self.messages[place];
        self.messages.copy_within(place + 1..sent, place);
        self.messages[sent - 1] = Message::default();
        self.sent -= 1;
        Some(message)
    }

    /// Whether a task waits for a message from this sender.
    pub fn awaits(&self, task: u8, sender: u8) -> bool {
        matches!(self.task(task).state, State::WaitMessage(wanted) if wanted == 0 || wanted == sender)
    }

    /// The earliest request for a task, taken from the pool.
    pub fn take_request(&mut self, task: u8) -> Option<Request> {
        let asked = self.asked as usize;
        let place = self.pool[..asked].iter().position(|request| request.task == task)?;
        let request = self.pool[place];
        self.pool.copy_within(place + 1..asked, place);
        self.pool[asked - 1] = Request::default();
        self.asked -= 1;
        Some(request)
    }
}

impl Answer {
    /// What every step from a table that is not well formed answers.
    pub const BROKEN: Answer = Answer {
        number: 1,
        z: false,
        v: false,
        c: false,
        active: 0,
        argument: 0,
        skipped: 0,
        walked: 0,
        sender: 0,
        text: [0; 8],
    };

    /// Names the table's active task and its argument, or nobody.
    pub fn name_active(&mut self, table: &Table) {
        self.name(table.queue[0], table);
    }

    /// Names the active task and its argument, or nobody.
    pub fn name(&mut self, active: u8, table: &Table) {
        self.active = active;
        self.argument = if active == 0 { 0 } else { table.task(active).argument };
    }
}
