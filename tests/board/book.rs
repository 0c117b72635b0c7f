//! The book of starts that the trial keeps from records, answers and images alone: those asked for by an accepted 05,
//! those that have begun, those that wait. It is held to the image after every step.

use model::image::decode;
use model::table::{State, Table};

/// A start that was asked for: the number of the step that was accepted, 0 where it waited already when the book was
/// opened, and what it came with.
#[derive(Clone, Copy)]
struct Asked {
    step: u64,
    task: u8,
    priority: u8,
    argument: u16,
}

pub struct Book {
    steps: u64,
    /// How many waited when the book was opened.
    found: u64,
    pub asked: u64,
    pub begun: u64,
    waiting: Vec<Asked>,
}

/// What is wrong, in words.
pub type Held = Result<(), String>;

impl Book {
    /// Opened at an image: what waits in it was asked for before.
    pub fn open(image: &[u8]) -> Book {
        let table = table_of(image);
        let waiting: Vec<Asked> = table.pool[..table.asked as usize]
            .iter()
            .map(|place| Asked { step: 0, task: place.task, priority: place.priority, argument: place.argument })
            .collect();
        Book { steps: 0, found: waiting.len() as u64, asked: 0, begun: 0, waiting }
    }

    /// Enters a step, and holds the book to the image after it.
    pub fn enter(&mut self, before: &[u8], record: &[u8], answer: &[u8], after: &[u8]) -> Held {
        let (before, after) = (table_of(before), table_of(after));
        self.steps += 1;
        let began = match (answer[0], record.first()) {
            (0, Some(0x05)) => self.asks(&before, record, answer[1] == 1),
            (0, Some(0x00)) => self.ends(&before, &after)?,
            _ => None,
        };
        self.number(&after)?;
        self.pool(&after)?;
        began.map_or(Ok(()), |began| began.runs(&after))
    }

    /// An accepted 05: a start is asked for. Where its target is busy (Z) it waits; else it begins.
    fn asks(&mut self, before: &Table, record: &[u8], busy: bool) -> Option<Asked> {
        let (option, task) = (record[1], record[2]);
        let priority = if option & 0x80 != 0 { before.task(task).own } else { option & 0x0F };
        let argument = if option & 0x10 != 0 { 0 } else { u16::from_be_bytes([record[3], record[4]]) };
        let asked = Asked { step: self.steps, task, priority, argument };
        self.asked += 1;
        if busy {
            self.waiting.push(asked);
            return None;
        }
        self.begun += 1;
        Some(asked)
    }

    /// An accepted 00: where its caller is not dormant after it, the first start that waits for it has begun.
    fn ends(&mut self, before: &Table, after: &Table) -> Result<Option<Asked>, String> {
        let caller = before.queue[0];
        let first = self.waiting.iter().position(|asked| asked.task == caller);
        match (after.task(caller).state == State::Dormant, first) {
            (true, None) => Ok(None),
            (true, Some(at)) => Err(format!("the start asked for at step {} does not begin", self.waiting[at].step)),
            (false, None) => Err(format!("task {caller} begins a run that nobody asked for")),
            (false, Some(at)) => {
                self.begun += 1;
                Ok(Some(self.waiting.remove(at)))
            }
        }
    }

    /// As many were accepted as are queued and have begun.
    fn number(&self, after: &Table) -> Held {
        let (asked, found, begun, queued) = (self.asked, self.found, self.begun, u64::from(after.asked));
        if asked + found != queued + begun {
            return Err(format!(
                "starts at step {}: {asked} accepted and {found} found, but {queued} queued and {begun} begun",
                self.steps
            ));
        }
        Ok(())
    }

    /// Those that wait are the pool's, place by place.
    fn pool(&self, after: &Table) -> Held {
        for (place, asked) in after.pool.iter().zip(&self.waiting) {
            if (place.task, place.priority, place.argument) != (asked.task, asked.priority, asked.argument) {
                return Err(format!("the start asked for at step {} is not at its place", asked.step));
            }
        }
        Ok(())
    }
}

impl Asked {
    /// Its run is ready, as it was asked for, scheduled now.
    fn runs(&self, after: &Table) -> Held {
        let task = after.task(self.task);
        let as_asked = (task.priority, task.argument) == (self.priority, self.argument);
        if task.state == State::Ready && as_asked && task.started == after.clock {
            return Ok(());
        }
        Err(format!("the start asked for at step {} does not run as it was asked for", self.step))
    }
}

fn table_of(image: &[u8]) -> Table {
    decode(image).expect("the book is kept of images")
}
