//! What a trial met: numbers, kinds, checks, days that ended, and why tasks did not run.

use crate::book::Book;
use crate::letters::Letters;
use model::table::{State, Table, FLAGS, TASKS};
use model::why::{Reason, Why};
use std::collections::BTreeMap;

/// The numbers that must be met: by steps, and by the making of fresh tables.
const OF_STEPS: [u8; 15] = [0, 1, 3, 4, 5, 6, 7, 8, 9, 10, 13, 14, 15, 16, 30];
const OF_FRESH: [u8; 3] = [0, 2, 30];
/// The most ready tasks that a step can pass over: 1 to 15, by sixteen that enter an empty queue.
const FARTHEST: u8 = 120;
/// Those by questions why a task is not running, and the reasons.
const OF_WHYS: [u8; 4] = [0, 1, 6, 30];
const REASONS: [&str; 12] = [
    "dormant",
    "active",
    "ready",
    "paused",
    "due",
    "any flag",
    "all flags",
    "start of a request",
    "end of a request's run",
    "end of a run",
    "subprogram",
    "message",
];
/// What waits for a time.
const TIMED: [&str; 3] = ["paused task", "due task", "alarm"];
/// The longest interval that is no day's: 255 hours.
const HOURS: u64 = 918_000_000;
const KINDS: [u8; 14] = [0x00, 0x01, 0x02, 0x03, 0x04, 0x05, 0x06, 0x07, 0x09, 0x0A, 0x0B, 0x14, 0x15, 0x80];

#[derive(Default)]
pub struct Met {
    steps: BTreeMap<u8, u64>,
    kinds: BTreeMap<u8, u64>,
    fresh: BTreeMap<u8, u64>,
    checks: BTreeMap<bool, u64>,
    days: [u64; TIMED.len()],
    /// The most grid times that one step passed over.
    skipped: u64,
    /// The most ready tasks that were passed over in one step.
    walked: u8,
    /// Starts that were asked for, and that have begun.
    starts: [u64; 2],
    /// Messages that were accepted, and that were delivered.
    letters: [u64; 2],
    /// How often the lamp showed each level, and 16 for dark.
    lamps: [u64; 17],
    whys: BTreeMap<u8, u64>,
    reasons: [u64; REASONS.len()],
    /// Paths that end in a ring of so many tasks; those with tasks that lead to it; paths of sixteen.
    rings: BTreeMap<u8, u64>,
    led: u64,
    longest: u64,
}

/// Since when each task has been in its state and each alarm has had its time.
#[derive(Default)]
pub struct Since {
    tasks: [u64; TASKS],
    alarms: [u64; FLAGS],
}

impl Since {
    /// What differs between two tables is as old as the clock.
    pub fn changed(&mut self, before: &Table, after: &Table) {
        for at in 0..TASKS {
            if before.tasks[at].state != after.tasks[at].state {
                self.tasks[at] = after.clock;
            }
        }
        for at in 0..FLAGS {
            if before.alarms[at] != after.alarms[at] {
                self.alarms[at] = after.clock;
            }
        }
    }
}

impl Met {
    pub fn stepped(&mut self, number: u8, record: &[u8]) {
        *self.steps.entry(number).or_default() += 1;
        if number == 0 {
            *self.kinds.entry(record[0]).or_default() += 1;
        }
    }

    pub fn made(&mut self, number: u8) {
        *self.fresh.entry(number).or_default() += 1;
    }

    /// The counts of an answer: grid times passed over, eight bytes, and ready tasks passed over, one.
    pub fn counted(&mut self, skipped: &[u8], walked: u8) {
        let count = skipped.iter().fold(0, |all, byte| all << 8 | u64::from(*byte));
        self.skipped = self.skipped.max(count);
        self.walked = self.walked.max(walked);
    }

    /// The times that came at an accepted tick, and were further off than hours reach.
    pub fn ticked(&mut self, since: &Since, before: &Table, after: &Table) {
        let came = |time: u64, from: u64| time <= after.clock && time - from > HOURS;
        for (task, from) in before.tasks.iter().zip(since.tasks) {
            match task.state {
                State::Paused(time) => self.days[0] += u64::from(came(time, from)),
                State::Due(time) => self.days[1] += u64::from(came(time, from)),
                _ => {}
            }
        }
        for (time, from) in before.alarms.iter().zip(since.alarms) {
            self.days[2] += u64::from(*time != 0 && came(*time, from));
        }
    }

    /// A book that is closed.
    pub fn accounted(&mut self, book: &Book) {
        self.starts[0] += book.asked;
        self.starts[1] += book.begun;
    }

    /// Letters that are closed.
    pub fn delivered(&mut self, letters: &Letters) {
        self.letters[0] += letters.posted;
        self.letters[1] += letters.handed;
    }

    /// What the lamp showed of a well-formed table.
    pub fn lit(&mut self, shown: u32) {
        self.lamps[shown as usize] += 1;
    }

    /// Why a task is not running.
    pub fn told(&mut self, why: &Why) {
        *self.whys.entry(why.number).or_default() += 1;
        for (_, reason) in &why.path {
            self.reasons[place_of(*reason)] += 1;
        }
        if why.ring > 0 {
            *self.rings.entry(why.ring as u8).or_default() += 1;
            self.led += u64::from(why.ring < why.path.len());
        }
        self.longest += u64::from(why.path.len() == TASKS);
    }

    /// A damaged image: whether it is one of a well-formed table all the same.
    pub fn checked(&mut self, sound: bool) {
        *self.checks.entry(sound).or_default() += 1;
    }

    pub fn steps(&self) -> u64 {
        self.steps.values().sum()
    }

    /// Prints all counts; true if nothing is missing.
    pub fn print(&self) -> bool {
        let of = |sound| self.checks.get(&sound).copied().unwrap_or(0);
        println!("{} steps", self.steps());
        print_counts("number", &self.steps, |number| number.to_string());
        print_counts("accepted kind", &self.kinds, |kind| format!("{kind:02X}"));
        print_counts("fresh table, number", &self.fresh, |number| number.to_string());
        println!("  grid times passed over in one step: at most {}", self.skipped);
        println!("  ready tasks passed over in one step: at most {}", self.walked);
        println!("  starts asked for: {}, begun: {}", self.starts[0], self.starts[1]);
        println!("  messages accepted: {}, delivered: {}", self.letters[0], self.letters[1]);
        println!("  lamp at 0 to 15, and dark: {:?}", self.lamps);
        for (what, count) in TIMED.iter().zip(self.days) {
            println!("  {what} after more than 255 hours: {count}");
        }
        print_counts("question why, number", &self.whys, |number| number.to_string());
        let words: Vec<String> =
            REASONS.iter().zip(self.reasons).map(|(what, count)| format!("{what}: {count}")).collect();
        println!("  reason {}", words.join(", "));
        print_counts("ring of", &self.rings, |many| many.to_string());
        println!("  rings with a lead: {}, paths of {TASKS}: {}", self.led, self.longest);
        println!("  damaged images: {} not well formed, {} well formed all the same", of(false), of(true));
        let complete = OF_STEPS.iter().all(|n| self.steps.contains_key(n))
            && OF_FRESH.iter().all(|n| self.fresh.contains_key(n))
            && KINDS.iter().all(|kind| self.kinds.contains_key(kind))
            && self.skipped > u64::from(u32::MAX)
            && self.walked == FARTHEST
            && self.starts.iter().all(|count| *count > 0)
            && self.letters.iter().all(|count| *count > 0)
            && self.lamps.iter().all(|count| *count > 0)
            && self.days.iter().all(|count| *count > 0)
            && OF_WHYS.iter().all(|n| self.whys.contains_key(n))
            && self.reasons.iter().all(|count| *count > 0)
            && (1..=TASKS as u8).all(|many| self.rings.contains_key(&many))
            && self.led > 0
            && self.longest > 0
            && of(false) > 0
            && of(true) > 0;
        if !complete {
            println!("something was never met");
        }
        complete
    }
}

/// The place of a reason among those that must be met.
fn place_of(reason: Reason) -> usize {
    match reason {
        Reason::Dormant => 0,
        Reason::Active => 1,
        Reason::Ready(_) => 2,
        Reason::Paused(_) => 3,
        Reason::Due(_) => 4,
        Reason::AnyOf(_) => 5,
        Reason::AllOf(_) => 6,
        Reason::Start(..) => 7,
        Reason::EndOfRequest(..) => 8,
        Reason::EndOfRun(_) => 9,
        Reason::Subprogram(..) => 10,
        Reason::Message(_) => 11,
    }
}

fn print_counts(what: &str, counts: &BTreeMap<u8, u64>, name: fn(u8) -> String) {
    let words: Vec<String> = counts.iter().map(|(&key, count)| format!("{}: {count}", name(key))).collect();
    println!("  {what} {}", words.join(", "));
}
