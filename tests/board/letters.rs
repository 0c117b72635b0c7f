//! The account of messages that the trial keeps from records, answers and images alone: those that were accepted by a
//! 14, those that were delivered, those that wait. It is held to the image after every step.

use model::image::decode;
use model::table::{Mail, Message, State, Table, Text, MESSAGES};

/// A message that was accepted: the number of its step, 0 where it waited already when the account was opened.
#[derive(Clone, Copy)]
struct Letter {
    step: u64,
    message: Message,
}

pub struct Letters {
    steps: u64,
    /// How many waited when the account was opened.
    found: u64,
    pub posted: u64,
    pub handed: u64,
    waiting: Vec<Letter>,
}

/// What is wrong, in words.
type Held = Result<(), String>;

impl Letters {
    /// Opened at an image: what waits in it was accepted before.
    pub fn open(image: &[u8]) -> Letters {
        let table = table_of(image);
        let waiting: Vec<Letter> =
            table.waiting().iter().map(|message| Letter { step: 0, message: *message }).collect();
        Letters { steps: 0, found: waiting.len() as u64, posted: 0, handed: 0, waiting }
    }

    /// Enters a step, and holds the account to the answer and to the image after it.
    pub fn enter(&mut self, before: &[u8], record: &[u8], answer: &[u8], after: &[u8]) -> Held {
        let (before, after) = (table_of(before), table_of(after));
        self.steps += 1;
        let mut told = Mail::default();
        let mut mail = before.tasks.map(|task| task.mail);
        match (answer[0], record) {
            (0, [0x14, to, text @ ..]) => {
                let text = Text::try_from(text).map_err(|_| "an accepted text has not eight bytes".to_string())?;
                if let Some(delivered) = self.sends(&before, *to, text) {
                    mail[*to as usize - 1] = delivered;
                    self.wakes(&after, *to)?;
                }
            }
            (0, [0x15, from]) => {
                mail[before.queue[0] as usize - 1] = Mail::default();
                told = self.receives(&before, &after, *from)?;
            }
            (0, [0x00 | 0x01, ..]) => mail[before.queue[0] as usize - 1] = Mail::default(),
            (16, [_, to, ..]) => self.refuses(&before, *to)?,
            _ => {}
        }
        self.told(answer, told)?;
        self.stands(&after, mail)?;
        self.line(&after)
    }

    /// An accepted 14: what it puts in the entry of a task that waits for it; else the message waits, by its priority.
    fn sends(&mut self, before: &Table, to: u8, text: Text) -> Option<Mail> {
        let sender = before.queue[0];
        self.posted += 1;
        if let State::WaitMessage(wanted) = before.task(to).state {
            if wanted == 0 || wanted == sender {
                self.handed += 1;
                return Some(Mail { sender, text });
            }
        }
        let priority = before.task(sender).priority;
        let ahead = self.waiting.iter().take_while(|letter| letter.message.priority >= priority).count();
        let letter = Letter { step: self.steps, message: Message { to, sender, priority, text } };
        self.waiting.insert(ahead, letter);
        None
    }

    /// A message is refused for want of room only where it would have to wait, and as many wait as may.
    fn refuses(&self, before: &Table, to: u8) -> Held {
        if self.waiting.len() == MESSAGES && !before.awaits(to, before.queue[0]) {
            return Ok(());
        }
        Err(format!("a message for task {to} is refused at step {}, and there is room, or it waits for it", self.steps))
    }

    /// Who got a message in its entry is ready.
    fn wakes(&self, after: &Table, to: u8) -> Held {
        match after.task(to).state {
            State::Ready => Ok(()),
            _ => Err(format!("task {to} got a message at step {} and is not ready", self.steps)),
        }
    }

    /// An accepted 15: the first of those that fit is handed out, and its sender and text told; else the caller waits.
    fn receives(&mut self, before: &Table, after: &Table, from: u8) -> Result<Mail, String> {
        let caller = before.queue[0];
        let fits = |letter: &Letter| letter.message.to == caller && (from == 0 || letter.message.sender == from);
        match self.waiting.iter().position(fits) {
            Some(at) => {
                self.handed += 1;
                let message = self.waiting.remove(at).message;
                Ok(Mail { sender: message.sender, text: message.text })
            }
            None if after.task(caller).state == State::WaitMessage(from) => Ok(Mail::default()),
            None => Err(format!("task {caller} does not wait, and no message fits at step {}", self.steps)),
        }
    }

    /// The answer tells of the message that was handed out, and of no other.
    fn told(&self, answer: &[u8], told: Mail) -> Held {
        if answer[16] == told.sender && answer[17..25] == told.text {
            return Ok(());
        }
        Err(format!("the answer of step {} has not the sender and text that were handed out", self.steps))
    }

    /// The message in an entry stands there, but for those that a step puts there or takes away.
    fn stands(&self, after: &Table, mail: [Mail; 16]) -> Held {
        match (1..).zip(&after.tasks).zip(mail).find(|((_, task), mail)| task.mail != *mail) {
            Some(((number, _), _)) => Err(format!("the mail of task {number} is another at step {}", self.steps)),
            None => Ok(()),
        }
    }

    /// Those that wait are the table's, place by place, and as many were accepted as wait and were delivered.
    fn line(&self, after: &Table) -> Held {
        for (place, letter) in after.messages.iter().zip(&self.waiting) {
            if *place != letter.message {
                return Err(format!("the message accepted at step {} is not at its place", letter.step));
            }
        }
        let (posted, found, handed, sent) = (self.posted, self.found, self.handed, u64::from(after.sent));
        if posted + found != sent + handed || sent != self.waiting.len() as u64 {
            return Err(format!(
                "messages at step {}: {posted} accepted and {found} found, but {sent} wait and {handed} delivered",
                self.steps
            ));
        }
        Ok(())
    }
}

fn table_of(image: &[u8]) -> Table {
    decode(image).expect("the account is kept of images")
}
