//! What a trial met: numbers, rules, and how one thing that was mended led to another.

use model::image::load;
use model::mend::{MendedImage, RULES};
use model::table::{State, Table};
use std::collections::BTreeMap;

/// The numbers that must be met.
const NUMBERS: [u32; 4] = [0, 1, 17, 30];
/// What is told beside the rules.
const CASES: [&str; 7] = [
    "nothing to mend",
    "no task's entry changed",
    "a list of sixteen",
    "a chain: a task dormant, its request dropped, its waiter ready",
    "two links to one waiter, who waits on",
    "a lost holder: a task dormant, its subprogram free, its waiter ready",
    "a queue in which equals keep their old places against their numbers",
];
/// By these rules a task becomes dormant, the others aside.
const OWN: [u8; 6] = [1, 3, 4, 5, 8, 11];

#[derive(Default)]
pub struct Met {
    numbers: BTreeMap<u32, u64>,
    rules: BTreeMap<u8, u64>,
    cases: [u64; CASES.len()],
    steps: BTreeMap<u8, u64>,
}

impl Met {
    pub fn number(&mut self, number: u32) {
        *self.numbers.entry(number).or_default() += 1;
    }

    /// A step from a mended table.
    pub fn stepped(&mut self, number: u8) {
        *self.steps.entry(number).or_default() += 1;
    }

    /// What was mended of an image.
    pub fn mended(&mut self, image: &[u8], mended: &MendedImage) {
        for (_, rule) in &mended.list {
            *self.rules.entry(*rule).or_default() += 1;
        }
        let unlisted = mended.list.is_empty();
        let (before, after) = match (load(image), load(&mended.image)) {
            (Some(before), Some(after)) => (before, after),
            _ => return,
        };
        let both = Both { before, after, list: &mended.list };
        let met = [
            mended.image == image,
            unlisted && mended.image != image,
            mended.list.len() == 16,
            both.chain(),
            both.two_links(),
            both.lost_holder(),
            mended.image != image && both.old_places(),
        ];
        for (count, met) in self.cases.iter_mut().zip(met) {
            *count += u64::from(met);
        }
    }

    /// Prints all counts; true if nothing is missing.
    pub fn print(&self) -> bool {
        print_counts("number", &self.numbers);
        print_counts("rule", &self.rules);
        print_counts("step from a mended table, number", &self.steps);
        for (case, count) in CASES.iter().zip(self.cases) {
            println!("  {case}: {count}");
        }
        let complete = NUMBERS.iter().all(|number| self.numbers.contains_key(number))
            && RULES.iter().all(|rule| self.rules.contains_key(rule))
            && self.cases.iter().all(|count| *count > 0)
            && self.steps.contains_key(&0);
        if !complete {
            println!("something was never met");
        }
        complete
    }
}

fn print_counts<K: std::fmt::Display>(what: &str, counts: &BTreeMap<K, u64>) {
    let words: Vec<String> = counts.iter().map(|(key, count)| format!("{key}: {count}")).collect();
    println!("  {what} {}", words.join(", "));
}

/// A table as it was given and as it was mended, and the list.
struct Both<'a> {
    before: Table,
    after: Table,
    list: &'a [(u8, u8)],
}

impl Both<'_> {
    fn rule(&self, number: u8) -> Option<u8> {
        self.list.iter().find(|(listed, _)| *listed == number).map(|(_, rule)| *rule)
    }

    fn became_dormant(&self, number: u8) -> bool {
        (1..=self.before.count).contains(&number)
            && self.before.task(number).state != State::Dormant
            && self.after.task(number).state == State::Dormant
            && self.rule(number).map_or(false, |rule| OWN.contains(&rule))
    }

    /// A task became dormant, so that a request for it was dropped, so that its waiter became ready.
    fn chain(&self) -> bool {
        self.before.pool.iter().any(|request| {
            self.became_dormant(request.task)
                && [request.start_waiter, request.end_waiter].iter().any(|waiter| self.rule(*waiter) == Some(13))
        })
    }

    /// Two links named a waiter in the state that they are for, and one of them is left.
    fn two_links(&self) -> bool {
        let waits_on = |number: u8| self.after.task(number).state == self.before.task(number).state;
        (1..=self.before.count).any(|number| {
            let state = self.before.task(number).state;
            matches!(state, State::WaitStart | State::WaitEnd)
                && links(&self.before, number) > 1
                && links(&self.after, number) == 1
                && waits_on(number)
        })
    }

    /// A task became dormant, so that a subprogram that it held is free, and who waited for it is ready.
    fn lost_holder(&self) -> bool {
        (0..).zip(&self.before.subs).any(|(place, sub)| {
            let waited = |number: &u8| self.before.task(*number).state == State::WaitSub(place);
            self.became_dormant(sub.holder)
                && (1..=self.before.count).filter(waited).any(|number| self.rule(number) == Some(13))
        })
    }

    /// Of two equals the one of the higher number stands first, as in the queue before.
    fn old_places(&self) -> bool {
        let place = |number: u8| self.before.queue.iter().position(|stood| *stood == number);
        self.after.queue[..self.after.queued as usize].windows(2).any(|pair| {
            let equal = self.after.task(pair[0]).priority == self.after.task(pair[1]).priority;
            equal && pair[0] > pair[1] && place(pair[0]).is_some() && place(pair[1]).is_some()
        })
    }
}

/// How many links name a task in the state that it is in.
fn links(table: &Table, number: u8) -> usize {
    let runs = table.tasks.iter().map(|task| (task.end_waiter, State::WaitEnd));
    let requests =
        table.pool.iter().flat_map(|one| [(one.start_waiter, State::WaitStart), (one.end_waiter, State::WaitEnd)]);
    runs.chain(requests).filter(|link| *link == (number, table.task(number).state)).count()
}
