//! The rules of a table (docs/TABLE.md): which of them some bytes break, and where.

use crate::image::{Request, State, Table, Task};
use crate::places::*;

/// The rules, in the order of docs/TABLE.md, then 02's; before them what makes bytes an image at all.
pub const RULES: [&str; 13] = [
    "an image has no byte that no stored table has there",
    "every number is in range",
    "the ready queue holds exactly the ready tasks, once each, in descending priority",
    "every stored time is after the clock, and at most 22,032,000,000 ms after it",
    "every last scheduled start is at or before the clock",
    "a wait's mask is not 0, and its condition is false now",
    "queued requests name busy tasks only",
    "a waiter that is named is another task in the matching state, and each such state is named once",
    "a dormant task holds zeros but for its own priority",
    "entries past the task count and free places are zero",
    "a subprogram's holder is not dormant, and its line holds exactly those that wait for it, once each, in descending \
     priority; a free one has no line",
    "no message waits that a task waits for, those that wait stand in descending priority, and the places behind them \
     are zero",
    "the word of the ready levels has bit p set exactly if some ready task has priority p",
];

/// A rule that is broken, the first byte of the number that breaks it, and how.
pub struct Broken {
    pub rule: usize,
    pub at: usize,
    pub why: String,
}

/// All that is broken, in the order of the rules.
pub fn broken(table: &Table) -> Vec<Broken> {
    let mut found = Found { table, list: Vec::new() };
    found.strays();
    found.numbers();
    found.requests_in_range();
    found.subprograms_in_range();
    found.messages_in_range();
    found.queue();
    found.times();
    found.starts();
    found.waits();
    found.targets();
    found.links();
    found.dormant();
    found.free();
    found.subprograms();
    found.messages();
    found.levels();
    found.list
}

struct Found<'a> {
    table: &'a Table,
    list: Vec<Broken>,
}

impl Found<'_> {
    /// Notes that a rule is broken, unless it is right.
    fn rule(&mut self, rule: usize, right: bool, at: Place, why: impl Fn() -> String) {
        if !right {
            self.list.push(Broken { rule, at: at.from, why: why() });
        }
    }

    fn is_task(&self, number: u8) -> bool {
        self.table.numbers().contains(&number)
    }

    /// The entries with their places and numbers.
    fn entries(&self) -> Vec<(usize, u8, Task)> {
        self.table.tasks.iter().cloned().enumerate().map(|(i, task)| (i, i as u8 + 1, task)).collect()
    }

    fn strays(&mut self) {
        for (i, k, task) in self.entries() {
            if let State::Stray(byte) = task.state {
                self.rule(0, false, ENTRIES.part(i, STATE), || format!("task {k} has the state {byte}, which is none"));
            }
            let timed = matches!(task.state, State::Paused(_) | State::Due(_));
            let time = task.time;
            self.rule(0, timed || time == 0, ENTRIES.part(i, TIME), || {
                format!("task {k} is neither paused nor due, and has the time {time}")
            });
            let waits = matches!(task.state, State::Any(_) | State::All(_));
            let mask = task.mask;
            self.rule(0, waits || mask == 0, ENTRIES.part(i, MASK), || {
                format!("task {k} waits for no flags, and has the mask {mask:08X}")
            });
            let waits = matches!(task.state, State::AwaitSub(_) | State::AwaitMessage(_));
            let awaited = task.awaited;
            self.rule(0, waits || awaited == 0, AWAITED.part(i, AWAITED_NUMBER), || {
                format!("task {k} waits for no subprogram and no message, and has the number {awaited} of one")
            });
        }
    }

    fn numbers(&mut self) {
        let (count, granule, clock) = (self.table.count, self.table.granule, self.table.clock);
        let (ready, queued) = (usize::from(self.table.ready), usize::from(self.table.queued));
        let counted = (1..=ENTRIES.many).contains(&usize::from(count));
        self.rule(1, counted, COUNT, || format!("the task count is {count}, and not 1 to 16"));
        self.rule(1, granule > 0, GRANULE, || "the granule is 0".to_string());
        self.rule(1, clock <= END_OF_TIME, CLOCK, || format!("the clock is {clock} ms, past 2^40"));
        self.rule(1, ready <= QUEUE.many, READY, || format!("{ready} places of the queue are taken, of 16"));
        self.rule(1, queued <= POOL.many, QUEUED, || format!("{queued} places of the pool are taken, of 32"));
        for (i, k, task) in self.entries() {
            let (own, priority, waiter) = (task.own, task.priority, task.end_waiter);
            self.rule(1, own <= HIGHEST, ENTRIES.part(i, OWN), || format!("task {k} has the own priority {own}"));
            self.rule(1, priority <= HIGHEST, ENTRIES.part(i, PRIORITY), || {
                format!("task {k} runs at priority {priority}")
            });
            self.rule(1, waiter == 0 || self.is_task(waiter), ENTRIES.part(i, END_WAITER), || {
                format!("task {waiter}, which is none, waits for the end of task {k}'s run")
            });
        }
    }

    /// The queued requests, with their places.
    fn requests(&self) -> Vec<(usize, Request)> {
        self.table.requests().iter().cloned().enumerate().collect()
    }

    fn requests_in_range(&mut self) {
        for (i, request) in self.requests() {
            let (n, target, priority) = (i + 1, request.target, request.priority);
            self.rule(1, self.is_task(target), POOL.part(i, TARGET), || {
                format!("request {n} is for task {target}, which is none")
            });
            self.rule(1, priority <= HIGHEST, POOL.part(i, RUN_PRIORITY), || {
                format!("request {n} has the priority {priority}")
            });
            for (waiter, part) in [(request.start_waiter, START_WAITER), (request.end_waiter, RUN_END_WAITER)] {
                self.rule(1, waiter == 0 || self.is_task(waiter), POOL.part(i, part), || {
                    format!("request {n} names task {waiter}, which is none, as its waiter")
                });
            }
        }
    }

    fn queue(&mut self) {
        let line = self.table.line().to_vec();
        self.line(2, &line, |i| QUEUE.part(i, QUEUE_TASK), State::Ready, "the queue", "ready");
    }

    /// A line holds exactly the tasks of its state, once each, in descending priority.
    fn line(&mut self, rule: usize, line: &[u8], place: impl Fn(usize) -> Place, state: State, what: &str, so: &str) {
        for (i, &k) in line.iter().enumerate() {
            let at = place(i);
            self.rule(rule, self.is_task(k), at, || format!("place {} of {what} holds {k}, which is no task", i + 1));
            self.rule(rule, !self.is_task(k) || self.table.state(k) == state, at, || {
                format!("task {k} stands in {what} and is not {so}")
            });
            self.rule(rule, !line[..i].contains(&k), at, || format!("task {k} stands in {what} twice"));
            let level = |k: u8| self.table.task(k).map_or(0, |task| task.priority);
            let rises = i > 0 && level(line[i - 1]) < level(k);
            self.rule(rule, !rises, at, || format!("task {k} stands behind one of lower priority"));
        }
        for (i, k, task) in self.entries() {
            self.rule(rule, task.state != state || line.contains(&k), ENTRIES.part(i, STATE), || {
                format!("task {k} is {so} and does not stand in {what}")
            });
        }
    }

    fn subprograms_in_range(&mut self) {
        for (i, k, task) in self.entries() {
            if let State::AwaitSub(number) = task.state {
                self.rule(1, usize::from(number) < SUBS.many, AWAITED.part(i, AWAITED_NUMBER), || {
                    format!("task {k} waits for subprogram {number}, which is none")
                });
            }
        }
        for (m, sub) in self.table.subs.clone().into_iter().enumerate() {
            let (holder, waiting) = (sub.holder, usize::from(sub.waiting));
            self.rule(1, holder == 0 || self.is_task(holder), SUBS.part(m, HOLDER), || {
                format!("subprogram {m} is held by task {holder}, which is none")
            });
            self.rule(1, waiting <= LINE, SUBS.part(m, WAITING), || {
                format!("{waiting} wait for subprogram {m}, and its line has 16 places")
            });
        }
    }

    fn subprograms(&mut self) {
        for (m, sub) in self.table.subs.clone().into_iter().enumerate() {
            let holder = sub.holder;
            let dormant = self.is_task(holder) && self.table.state(holder) == State::Dormant;
            self.rule(10, !dormant, SUBS.part(m, HOLDER), || {
                format!("subprogram {m} is held by task {holder}, which is dormant")
            });
            self.rule(10, holder != 0 || sub.waiting == 0, SUBS.part(m, HOLDER), || {
                format!("subprogram {m} is free, and {} wait for it", sub.waiting)
            });
            let (what, so) = (format!("the line of subprogram {m}"), format!("waiting for subprogram {m}"));
            let place = |i| SUBS.part(m, line_place(i));
            self.line(10, sub.line(), place, State::AwaitSub(m as u8), &what, &so);
            for (i, k) in sub.places.iter().enumerate().skip(usize::from(sub.waiting)) {
                self.rule(10, *k == 0, place(i), || format!("place {} of {what} is free, and not 0", i + 1));
            }
        }
    }

    fn messages_in_range(&mut self) {
        let sent = self.table.sent;
        self.rule(1, usize::from(sent) <= MESSAGES.many, SENT, || format!("{sent} messages wait, of 32"));
        for (i, k, task) in self.entries() {
            if let State::AwaitMessage(sender) = task.state {
                self.rule(1, sender == 0 || self.is_task(sender), AWAITED.part(i, AWAITED_NUMBER), || {
                    format!("task {k} waits for a message from task {sender}, which is none")
                });
            }
            let sender = task.mail.sender;
            self.rule(1, sender == 0 || self.is_task(sender), MAIL.part(i, MAIL_SENDER), || {
                format!("task {k} has a message from task {sender}, which is none")
            });
        }
        for (i, message) in self.table.waiting().to_vec().into_iter().enumerate() {
            let (n, priority) = (i + 1, message.priority);
            for (number, part, how) in [(message.to, TO, "for"), (message.sender, SENDER, "from")] {
                self.rule(1, self.is_task(number), MESSAGES.part(i, part), || {
                    format!("message {n} is {how} task {number}, which is none")
                });
            }
            self.rule(1, priority <= HIGHEST, MESSAGES.part(i, SENT_AT), || {
                format!("message {n} was sent at priority {priority}")
            });
        }
    }

    fn messages(&mut self) {
        let waiting = self.table.waiting().to_vec();
        for (i, message) in waiting.iter().enumerate() {
            let wanted = match self.table.state(message.to) {
                State::AwaitMessage(sender) => message.fits(message.to, sender),
                _ => false,
            };
            self.rule(11, !wanted, MESSAGES.part(i, TO), || {
                format!("message {} waits, and task {} waits for it", i + 1, message.to)
            });
            let rises = i > 0 && waiting[i - 1].priority < message.priority;
            self.rule(11, !rises, MESSAGES.part(i, SENT_AT), || {
                format!("message {} stands behind one of lower priority", i + 1)
            });
        }
        for (i, place) in self.table.messages.clone().into_iter().enumerate().skip(waiting.len()) {
            self.rule(11, place.is_none(), MESSAGES.part(i, TO), || {
                format!("place {} of the messages is free, and not zero", i + 1)
            });
        }
    }

    fn times(&mut self) {
        let clock = self.table.clock;
        let ahead = |time: u64| time > clock && time - clock <= LONGEST;
        for (i, k, task) in self.entries() {
            if let State::Paused(time) | State::Due(time) = task.state {
                self.rule(3, ahead(time), ENTRIES.part(i, TIME), || {
                    format!("task {k} is paused or due until {time} ms, and the clock is {clock} ms")
                });
            }
        }
        for (n, time) in self.table.alarms.clone().into_iter().enumerate() {
            self.rule(3, time == 0 || ahead(time), ALARMS.part(n, ALARM_TIME), || {
                format!("the alarm of flag {n} is for {time} ms, and the clock is {clock} ms")
            });
        }
    }

    fn starts(&mut self) {
        let clock = self.table.clock;
        for (i, k, task) in self.entries() {
            self.rule(4, task.start <= clock, ENTRIES.part(i, START), || {
                format!("task {k}'s last scheduled start is {} ms, and the clock is {clock} ms", task.start)
            });
        }
    }

    fn waits(&mut self) {
        let flags = self.table.flags;
        for (i, k, task) in self.entries() {
            let (mask, met) = match task.state {
                State::Any(mask) => (mask, flags & mask != 0),
                State::All(mask) => (mask, flags & mask == mask),
                _ => continue,
            };
            let at = ENTRIES.part(i, MASK);
            self.rule(5, mask != 0, at, || format!("task {k} waits for flags, and for none"));
            self.rule(5, mask == 0 || !met, at, || format!("task {k} waits for flags that are set: {mask:08X}"));
        }
    }

    fn targets(&mut self) {
        for (i, request) in self.requests() {
            let dormant = self.is_task(request.target) && self.table.state(request.target) == State::Dormant;
            self.rule(6, !dormant, POOL.part(i, TARGET), || {
                format!("request {} is for task {}, which is dormant", i + 1, request.target)
            });
        }
    }

    /// Every link: who holds it, which waiter it names, where it stands and the state it asks for.
    fn all_links(&self) -> Vec<(u8, u8, Place, State)> {
        let runs = self.entries().into_iter();
        let runs = runs.map(|(i, k, task)| (k, task.end_waiter, ENTRIES.part(i, END_WAITER), State::AwaitEnd));
        let requests = self.requests().into_iter().flat_map(|(i, request)| {
            [
                (request.target, request.start_waiter, POOL.part(i, START_WAITER), State::AwaitStart),
                (request.target, request.end_waiter, POOL.part(i, RUN_END_WAITER), State::AwaitEnd),
            ]
        });
        runs.chain(requests).filter(|(_, waiter, ..)| *waiter != 0).collect()
    }

    fn links(&mut self) {
        let links = self.all_links();
        for (i, &(holder, waiter, at, state)) in links.iter().enumerate() {
            self.rule(7, waiter != holder, at, || format!("task {waiter} is named as its own waiter"));
            self.rule(7, !self.is_task(waiter) || self.table.state(waiter) == state, at, || {
                format!("task {waiter} is named as a waiter, and does not wait so")
            });
            let before = links[..i].iter().any(|link| link.1 == waiter);
            self.rule(7, !before, at, || format!("task {waiter} is named as a waiter twice"));
        }
        for (i, request) in self.requests() {
            let one = request.start_waiter == 0 || request.end_waiter == 0;
            self.rule(7, one, POOL.part(i, START_WAITER), || format!("request {} names two waiters", i + 1));
        }
        for (i, k, task) in self.entries() {
            let waits = matches!(task.state, State::AwaitStart | State::AwaitEnd);
            let named = links.iter().any(|link| link.1 == k);
            self.rule(7, !waits || named, ENTRIES.part(i, STATE), || {
                format!("task {k} waits for a start or an end, and nobody names it")
            });
        }
    }

    fn dormant(&mut self) {
        for (i, k, task) in self.entries() {
            let zero = task.priority == 0 && task.argument == 0 && task.start == 0 && task.end_waiter == 0;
            self.rule(8, task.state != State::Dormant || zero, ENTRIES.part(i, PRIORITY), || {
                format!("task {k} is dormant, and its entry holds more than its own priority")
            });
            let mailed = task.state == State::Dormant && !task.mail.is_none();
            self.rule(8, !mailed || !self.is_task(k), MAIL.part(i, MAIL_SENDER), || {
                format!("task {k} is dormant, and has a message in its entry")
            });
        }
    }

    fn free(&mut self) {
        for (i, k, task) in self.entries().into_iter().skip(usize::from(self.table.count)) {
            self.rule(9, task.state == State::Dormant && task.own == 0, ENTRIES.part(i, OWN), || {
                format!("there is no task {k}, and its entry is not zero")
            });
            self.rule(9, task.mail.is_none(), MAIL.part(i, MAIL_SENDER), || {
                format!("there is no task {k}, and a message is in its entry")
            });
        }
        for (i, k) in self.table.queue.clone().into_iter().enumerate().skip(usize::from(self.table.ready)) {
            self.rule(9, k == 0, QUEUE.part(i, QUEUE_TASK), || {
                format!("place {} of the queue is free, and not 0", i + 1)
            });
        }
        let pool = self.table.pool.clone().into_iter().enumerate();
        for (i, place) in pool.skip(usize::from(self.table.queued)) {
            let parts = [place.target, place.priority, place.start_waiter, place.end_waiter];
            self.rule(9, parts == [0; 4] && place.argument == 0, POOL.part(i, TARGET), || {
                format!("place {} of the pool is free, and not zero", i + 1)
            });
        }
    }

    fn levels(&mut self) {
        let levels = self.table.levels;
        for p in 0..=HIGHEST {
            let lit = levels >> p & 1 == 1;
            let ready = self.table.tasks.iter().any(|task| task.state == State::Ready && task.priority == p);
            self.rule(12, !lit || ready, LEVELS, || format!("bit {p} is set, and no ready task has priority {p}"));
            self.rule(12, lit || !ready, LEVELS, || format!("a ready task has priority {p}, and bit {p} is not set"));
        }
    }
}
