//! Where each thing stands in a table's image (docs/TABLE.md), and the bounds of its numbers. Where an image grows,
//! this is the table to extend.

/// A number: so many bytes from a place on, the highest first.
#[derive(Clone, Copy)]
pub struct Place {
    pub from: usize,
    pub bytes: usize,
}

/// Parts that repeat, each so many bytes behind the one before.
pub struct Rows {
    from: usize,
    step: usize,
    pub many: usize,
}

const fn place(from: usize, bytes: usize) -> Place {
    Place { from, bytes }
}

const fn rows(from: usize, step: usize, many: usize) -> Rows {
    Rows { from, step, many }
}

/// The bytes of an image.
pub const LENGTH: usize = 1_555;

/// The tasks' entries, and the parts of one.
pub const ENTRIES: Rows = rows(0, 26, 16);
pub const OWN: Place = place(0, 1);
pub const STATE: Place = place(1, 1);
pub const TIME: Place = place(2, 8);
pub const MASK: Place = place(10, 4);
pub const PRIORITY: Place = place(14, 1);
pub const ARGUMENT: Place = place(15, 2);
pub const START: Place = place(17, 8);
pub const END_WAITER: Place = place(25, 1);

/// The ready queue's places.
pub const QUEUE: Rows = rows(416, 1, 16);
pub const QUEUE_TASK: Place = place(0, 1);

/// The numbers that stand alone.
pub const READY: Place = place(432, 1);
pub const COUNT: Place = place(433, 1);
pub const GRANULE: Place = place(434, 1);
pub const QUEUED: Place = place(435, 1);
pub const CLOCK: Place = place(436, 8);
pub const FLAGS: Place = place(444, 4);

/// The alarms of the flags.
pub const ALARMS: Rows = rows(448, 8, 32);
pub const ALARM_TIME: Place = place(0, 8);

/// The pool's places, and the parts of one.
pub const POOL: Rows = rows(704, 6, 32);
pub const TARGET: Place = place(0, 1);
pub const RUN_PRIORITY: Place = place(1, 1);
pub const RUN_ARGUMENT: Place = place(2, 2);
pub const START_WAITER: Place = place(4, 1);
pub const RUN_END_WAITER: Place = place(5, 1);

/// The word of the ready levels.
pub const LEVELS: Place = place(896, 2);

/// The number that each task's state waits for: a subprogram's, or a sender's.
pub const AWAITED: Rows = rows(898, 1, 16);
pub const AWAITED_NUMBER: Place = place(0, 1);

/// The subprograms, and the parts of one; the places of its line follow its count.
pub const SUBS: Rows = rows(914, 18, 8);
pub const HOLDER: Place = place(0, 1);
pub const WAITING: Place = place(1, 1);
pub const LINE: usize = 16;

/// A place of a subprogram's line, from 0.
pub const fn line_place(i: usize) -> Place {
    place(2 + i, 1)
}

/// The messages that wait, and the parts of one; then how many there are.
pub const MESSAGES: Rows = rows(1_058, 11, 32);
pub const TO: Place = place(0, 1);
pub const SENDER: Place = place(1, 1);
pub const SENT_AT: Place = place(2, 1);
pub const TEXT: Place = place(3, 8);
pub const SENT: Place = place(1_410, 1);

/// The message in each task's entry.
pub const MAIL: Rows = rows(1_411, 9, 16);
pub const MAIL_SENDER: Place = place(0, 1);
pub const MAIL_TEXT: Place = place(1, 8);

/// The bytes of an answer, and the parts of one (docs/EMBEDDING.md).
pub const ANSWER: usize = 25;
pub const NUMBER: Place = place(0, 1);
pub const Z: Place = place(1, 1);
pub const V: Place = place(2, 1);
pub const C: Place = place(3, 1);
pub const SKIPPED: Place = place(8, 8);
pub const HANDED_SENDER: Place = place(16, 1);
pub const HANDED_TEXT: Place = place(17, 8);

/// The bounds of the numbers.
pub const HIGHEST: u8 = 15;
pub const END_OF_TIME: u64 = 1 << 40;
pub const LONGEST: u64 = 22_032_000_000;

impl Rows {
    /// The part of row i, counted from 0.
    pub fn part(&self, i: usize, part: Place) -> Place {
        place(self.from + self.step * i + part.from, part.bytes)
    }
}

impl Place {
    /// The number that stands here; bytes past the end read as 0.
    pub fn number(self, bytes: &[u8]) -> u64 {
        (self.from..self.from + self.bytes).fold(0, |n, i| n << 8 | u64::from(bytes.get(i).copied().unwrap_or(0)))
    }

    /// As a byte: the lowest of the number.
    pub fn byte(self, bytes: &[u8]) -> u8 {
        self.number(bytes) as u8
    }
}
