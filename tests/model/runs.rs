//! Seeded runs for the bench: deep valid ones, damaged ones, and ones near the longest input.

use crate::bench::LONGEST_INPUT;
use crate::configuration::fresh_from_start;
use crate::records::cut;
use crate::steps::step;
use crate::table::{State, Table, MESSAGES, PLACES, SUBS, TASKS, UNITS};

/// A small generator of numbers (splitmix64).
pub struct Rng(u64);

impl Rng {
    pub fn new(seed: u64, index: u64) -> Rng {
        let mut rng = Rng(seed ^ index.wrapping_mul(0xD6E8_FEB8_6659_FD93));
        rng.next();
        rng
    }

    fn next(&mut self) -> u64 {
        self.0 = self.0.wrapping_add(0x9E37_79B9_7F4A_7C15);
        let mut x = self.0;
        x = (x ^ x >> 30).wrapping_mul(0xBF58_476D_1CE4_E5B9);
        x = (x ^ x >> 27).wrapping_mul(0x94D0_49BB_1331_11EB);
        x ^ x >> 31
    }

    /// A number from 0 to `bound` - 1.
    pub fn below(&mut self, bound: usize) -> usize {
        (self.next() % bound as u64) as usize
    }

    pub fn one_in(&mut self, bound: usize) -> bool {
        self.below(bound) == 0
    }

    pub fn byte(&mut self) -> u8 {
        self.next() as u8
    }

    pub fn pick<T: Copy>(&mut self, from: &[T]) -> T {
        from[self.below(from.len())]
    }
}

/// Every so many runs one is long; of the others about a quarter are damaged.
const LONG_EVERY: u64 = 500;

/// The run of a seed and an index.
pub fn run(seed: u64, index: u64) -> Vec<u8> {
    let mut rng = Rng::new(seed, index);
    if index % LONG_EVERY == LONG_EVERY - 1 {
        return long_run(&mut rng, index / LONG_EVERY);
    }
    if index % 4 == 3 {
        return damaged_run(&mut rng);
    }
    let steps = 10 + rng.below(140);
    deep_run(&mut rng, steps)
}

/// A way that a deep run goes on.
type Aim = fn(&mut Run, &mut Rng);

/// The ways of every run, which draws its own weights for them; then those that are rare, and those of the runs that
/// share subprograms, and that send messages.
const AIMS: [Aim; 18] = [
    Run::tick,
    Run::terminate,
    Run::catch_up,
    Run::skip,
    Run::restart,
    Run::pause,
    Run::cancel,
    Run::start_if_dormant,
    Run::start_or_queue,
    Run::wait_for_start,
    Run::wait_for_end,
    Run::flag,
    Run::wake_by_flag,
    Run::wait,
    Run::alarm,
    Run::anything,
    Run::some_ticks,
    Run::wake_together,
];
const RARE: [Aim; 2] = [Run::fill_pool, Run::go_idle];
const SHARING: [Aim; 3] = [Run::enter_sub, Run::exit_sub, Run::share];
const MAILING: [Aim; 3] = [Run::send, Run::receive, Run::correspond];

/// A run being made, with the executive beside it to aim by.
struct Run {
    bytes: Vec<u8>,
    table: Table,
    stay_alive: bool,
}

/// A valid run of about so many steps, mostly closed by ends of runs that show the queue.
fn deep_run(rng: &mut Rng, steps: usize) -> Vec<u8> {
    let stay_alive = rng.one_in(2);
    let mut run = Run::new(rng, stay_alive);
    let weights = weights(rng);
    for _ in 0..steps {
        run.go_on(rng, &weights);
        if dead(&run.table) && rng.one_in(4) {
            break;
        }
    }
    if !rng.one_in(4) {
        run.show_queue(rng);
    }
    run.bytes
}

/// The drawn aims, as a list to pick from; a third of the runs share subprograms, and a third send messages.
fn weights(rng: &mut Rng) -> Vec<Aim> {
    let mut list: Vec<Aim> = vec![Run::tick, Run::terminate];
    let (share, mail) = (rng.one_in(3), rng.one_in(3));
    let sorts: [(&[Aim], usize, bool); 5] =
        [(&AIMS, 9, true), (&RARE, 2, true), (&SHARING, 9, share), (&MAILING, 9, mail), (&[Run::fill_mail], 2, mail)];
    for (aims, most, _) in sorts.into_iter().filter(|(.., drawn)| *drawn) {
        for aim in aims {
            list.extend(std::iter::repeat(aim).take(rng.below(most)));
        }
    }
    list
}

impl Run {
    fn new(rng: &mut Rng, stay_alive: bool) -> Run {
        let bytes = configuration(rng);
        let (table, _) = fresh_from_start(&bytes).expect("the generator's configuration is good");
        Run { bytes, table, stay_alive }
    }

    /// Adds a step, unless it would leave a run that shall stay alive with nothing to wait for.
    fn add(&mut self, record: &[u8]) {
        let mut next = self.table;
        step(&mut next, record);
        if self.stay_alive && self.table.queued > 0 && dead(&next) {
            return;
        }
        self.table = next;
        self.bytes.extend_from_slice(record);
    }

    fn go_on(&mut self, rng: &mut Rng, weights: &[Aim]) {
        let idle = self.table.queued == 0;
        let aim = if idle && !rng.one_in(20) { Run::tick } else { rng.pick(weights) };
        aim(self, rng);
    }

    /// Ends run after run, so that the order of the queue is seen.
    fn show_queue(&mut self, rng: &mut Rng) {
        self.stay_alive = false;
        for _ in 0..rng.below(40) {
            let idle = self.table.queued == 0;
            if dead(&self.table) && rng.one_in(2) {
                break;
            }
            if rng.one_in(3) || idle && !rng.one_in(4) {
                self.add(&[0x80]);
            } else {
                self.terminate(rng);
            }
        }
    }

    /// A task, with luck one for which `wanted` holds.
    fn task_where(&self, rng: &mut Rng, wanted: impl Fn(State) -> bool) -> u8 {
        let count = self.table.count;
        let fit: Vec<u8> = (1..=count).filter(|&n| wanted(self.table.task(n).state)).collect();
        if fit.is_empty() || rng.one_in(10) {
            1 + rng.below(count as usize) as u8
        } else {
            rng.pick(&fit)
        }
    }

    /// A unit and a count that come to a few granules, give or take 1 ms, or to anything; the ends of the
    /// count's range and the powers of two in any unit.
    fn interval(&self, rng: &mut Rng) -> [u8; 2] {
        let granules = rng.below(5) * self.table.granule as usize;
        match rng.below(12) {
            0 => [rng.below(UNITS.len()) as u8, some_count(rng)],
            1 => [rng.below(3) as u8, rng.below(4) as u8],
            2 | 3 => [1, (granules / 10 + rng.below(2)).min(255) as u8],
            _ => [0, (granules + rng.below(3)).saturating_sub(1).min(255) as u8],
        }
    }

    fn option(&self, rng: &mut Rng, bits: u8) -> u8 {
        let own = if rng.one_in(2) { 0x80 } else { 0 };
        own | bits | if rng.one_in(2) { 7 } else { rng.byte() & 0x0F }
    }

    /// A flag that somebody waits for, if any, or one of the first few.
    fn wanted_flag(&self, rng: &mut Rng) -> u8 {
        let mut wanted = 0;
        for task in &self.table.tasks {
            if let State::WaitAny(mask) | State::WaitAll(mask) = task.state {
                wanted |= mask;
            }
        }
        let fit: Vec<u8> = (0..32).filter(|flag| wanted >> flag & 1 == 1).collect();
        if fit.is_empty() || rng.one_in(4) {
            some_flag(rng)
        } else {
            rng.pick(&fit)
        }
    }

    fn tick(&mut self, _: &mut Rng) {
        self.add(&[0x80]);
    }

    fn some_ticks(&mut self, rng: &mut Rng) {
        for _ in 0..1 + rng.below(12) {
            self.add(&[0x80]);
        }
    }

    fn terminate(&mut self, rng: &mut Rng) {
        self.let_go(rng);
        self.add(&[0x00]);
    }

    /// Ends the run with an interval from its last scheduled start, often several times.
    fn catch_up(&mut self, rng: &mut Rng) {
        let [unit, count] = self.interval(rng);
        let unused = if rng.one_in(4) { rng.byte() & 0x38 } else { 0 };
        for _ in 0..1 + rng.below(3) {
            self.let_go(rng);
            self.add(&[0x01, unit | unused, count]);
        }
    }

    /// Lets some ticks pass and ends the run by a restart that skips the starts it missed; now and then
    /// with the base bit as well, which is refused.
    fn skip(&mut self, rng: &mut Rng) {
        let [unit, count] = self.interval(rng);
        let unused = rng.byte() & 0x38;
        let base = if rng.one_in(8) { 0x80 } else { 0 };
        for _ in 0..rng.below(12) {
            self.add(&[0x80]);
        }
        self.let_go(rng);
        self.add(&[0x01, 0x40 | base | unused | unit, count]);
    }

    fn restart(&mut self, rng: &mut Rng) {
        let [unit, count] = self.interval(rng);
        self.let_go(rng);
        match rng.below(3) {
            0 => self.add(&[0x01, rng.byte() | 0x06, rng.byte()]),
            1 => self.add(&[0x01, 0x80 | unit, count]),
            _ => self.add(&[0x01, rng.byte(), rng.byte()]),
        }
    }

    fn pause(&mut self, rng: &mut Rng) {
        let [unit, count] = self.interval(rng);
        self.add(&[0x02, unit, count]);
    }

    fn cancel(&mut self, rng: &mut Rng) {
        let timed = |state| matches!(state, State::Paused(_) | State::Due(_));
        let task = self.task_where(rng, timed);
        self.add(&[0x03, task]);
    }

    fn start_if_dormant(&mut self, rng: &mut Rng) {
        let task = self.task_where(rng, |state| state == State::Dormant);
        let option = self.option(rng, 0);
        self.add(&[0x04, option, task]);
    }

    /// A 05 with the wait bits given, at a busy task or at any.
    fn ask(&mut self, rng: &mut Rng, wait: u8) {
        let busy = rng.one_in(2);
        let task = self.task_where(rng, |state| (state != State::Dormant) == busy);
        let silent = if rng.one_in(4) { 0x10 } else { 0 };
        let option = self.option(rng, wait | silent);
        self.add(&[0x05, option, task, rng.byte(), rng.byte()]);
    }

    fn start_or_queue(&mut self, rng: &mut Rng) {
        self.ask(rng, 0);
    }

    fn wait_for_start(&mut self, rng: &mut Rng) {
        self.ask(rng, 0x20);
    }

    fn wait_for_end(&mut self, rng: &mut Rng) {
        self.ask(rng, 0x40);
    }

    fn flag(&mut self, rng: &mut Rng) {
        let flag = self.wanted_flag(rng);
        self.add(&[0x09, rng.below(3) as u8, flag]);
    }

    /// Sets a flag that somebody waits for; mostly it is reset again at once.
    fn wake_by_flag(&mut self, rng: &mut Rng) {
        let flag = self.wanted_flag(rng);
        self.add(&[0x09, 1, flag]);
        if !rng.one_in(3) {
            self.add(&[0x09, 0, flag]);
        }
    }

    fn wait(&mut self, rng: &mut Rng) {
        let mut mask = 0u32;
        for _ in 0..1 + rng.below(3) {
            mask |= 1 << some_flag(rng);
        }
        let [a, b, c, d] = mask.to_be_bytes();
        self.add(&[0x0A, rng.below(2) as u8, a, b, c, d]);
    }

    /// An alarm, sometimes where one is running, sometimes with count 0.
    fn alarm(&mut self, rng: &mut Rng) {
        let [unit, count] = self.interval(rng);
        let count = if rng.one_in(4) { 0 } else { count };
        let running = self.table.alarms.iter().position(|&time| time != 0);
        let flag = match running {
            Some(flag) if rng.one_in(4) => flag as u8,
            _ => self.wanted_flag(rng),
        };
        self.add(&[0x0B, unit, count, flag]);
    }

    /// One waits for a flag and others pause, mostly each for less than the last: the alarm and every pause end with
    /// the next tick.
    fn wake_together(&mut self, rng: &mut Rng) {
        let flag = some_flag(rng);
        let [a, b, c, d] = (1u32 << flag).to_be_bytes();
        let mut time = self.table.granule;
        self.add(&[0x09, 0, flag]);
        self.add(&[0x0B, 0, time, flag]);
        self.add(&[0x0A, rng.below(2) as u8, a, b, c, d]);
        for _ in 0..2 + rng.below(4) {
            if self.table.queued > 0 {
                self.add(&[0x02, 0, time]);
            }
            if !rng.one_in(3) {
                time = 1 + rng.below(time as usize) as u8;
            }
        }
        self.add(&[0x80]);
    }

    /// A carried kind with a body of small or any bytes: mostly refused with 6 or 7.
    fn anything(&mut self, rng: &mut Rng) {
        let (kind, length) = rng.pick(&CALLS);
        let small = rng.one_in(2);
        let mut record = vec![kind];
        for _ in 0..length {
            record.push(if small { rng.below(7) as u8 } else { rng.byte() });
        }
        self.add(&record);
    }

    /// Queues requests until the pool is full, and one more.
    fn fill_pool(&mut self, rng: &mut Rng) {
        let option = self.option(rng, 0);
        for _ in self.table.asked as usize..=PLACES {
            let task = self.task_where(rng, |state| state != State::Dormant);
            self.add(&[0x05, option, task, 0, rng.byte()]);
        }
        self.terminate(rng);
        self.ask(rng, 0);
    }

    /// The subprograms that the caller holds.
    fn held(&self) -> Vec<u8> {
        let caller = self.table.queue[0];
        (0..SUBS as u8).filter(|n| caller != 0 && self.table.subs[*n as usize].holder == caller).collect()
    }

    /// Mostly the caller leaves all that it holds, so that its run may end.
    fn let_go(&mut self, rng: &mut Rng) {
        if rng.one_in(6) {
            return;
        }
        for _ in 0..SUBS {
            if let Some(number) = self.held().first() {
                self.add(&[0x07, *number]);
            }
        }
    }

    fn enter_sub(&mut self, rng: &mut Rng) {
        let number = some_sub(rng);
        self.add(&[0x06, number]);
    }

    /// Leaves one that the caller holds, or now and then any.
    fn exit_sub(&mut self, rng: &mut Rng) {
        let held = self.held();
        let number = if held.is_empty() || rng.one_in(8) { some_sub(rng) } else { rng.pick(&held) };
        self.add(&[0x07, number]);
    }

    /// The caller enters a subprogram and departs with it; some of those that are active then, and of those that ticks
    /// wake or starts bring, want it too.
    fn share(&mut self, rng: &mut Rng) {
        let number = some_sub(rng) % SUBS as u8;
        self.add(&[0x06, number]);
        match rng.below(5) {
            0 => self.wait(rng),
            1 => self.wait_for_end(rng),
            2 => self.enter_sub(rng),
            _ => self.pause(rng),
        }
        for _ in 0..2 + rng.below(6) {
            match rng.below(4) {
                0 => self.tick(rng),
                1 => self.start_if_dormant(rng),
                _ if self.held().contains(&number) && !rng.one_in(4) => self.pause(rng),
                _ if self.table.queued > 0 => self.add(&[0x06, number]),
                _ => {}
            }
        }
    }

    fn send_to(&mut self, rng: &mut Rng, to: u8) {
        let text = [rng.byte(), 0, 0, 0, 0, 0, 0, rng.byte()];
        self.add(&[&[0x14, to], &text[..]].concat());
    }

    /// A message, with luck for a task that waits for one.
    fn send(&mut self, rng: &mut Rng) {
        let to = self.task_where(rng, |state| matches!(state, State::WaitMessage(_)));
        self.send_to(rng, to);
    }

    /// A receive from any task, from one whose message waits, or from one.
    fn receive(&mut self, rng: &mut Rng) {
        let waiting = self.table.waiting().iter().find(|message| message.to == self.table.queue[0]);
        let from = match (rng.below(4), waiting) {
            (0 | 1, _) => 0,
            (2, Some(message)) => message.sender,
            _ => 1 + rng.below(self.table.count as usize) as u8,
        };
        self.add(&[0x15, from]);
    }

    /// Several send to one task, which comes to its turn now and then.
    fn correspond(&mut self, rng: &mut Rng) {
        let to = 1 + rng.below(self.table.count as usize) as u8;
        for _ in 0..4 + rng.below(12) {
            match rng.below(8) {
                0 => self.tick(rng),
                1 => self.pause(rng),
                2 => self.add(&[0x04, 0x80, to]),
                _ if self.table.queued == 0 => {}
                _ if self.table.queue[0] == to => self.receive(rng),
                _ => self.send_to(rng, to),
            }
        }
    }

    /// Sends until as many wait as may, and more, the first of them to a task that waits for one, if any.
    fn fill_mail(&mut self, rng: &mut Rng) {
        if rng.one_in(2) {
            self.receive(rng);
        }
        for _ in self.table.sent as usize..=MESSAGES {
            let to = self.task_where(rng, |state| !matches!(state, State::WaitMessage(_)));
            self.send_to(rng, to);
        }
        self.send(rng);
        self.receive(rng);
        self.send(rng);
    }

    /// Every ready task pauses, and then somebody calls all the same.
    fn go_idle(&mut self, rng: &mut Rng) {
        for _ in 0..TASKS + 4 {
            if self.table.queued > 0 {
                self.pause(rng);
            }
        }
        self.anything(rng);
    }
}

/// The calls and the lengths of their bodies.
const CALLS: [(u8, usize); 13] = [
    (0x00, 0),
    (0x01, 2),
    (0x02, 2),
    (0x03, 1),
    (0x04, 2),
    (0x05, 4),
    (0x06, 1),
    (0x07, 1),
    (0x09, 2),
    (0x0A, 5),
    (0x0B, 3),
    (0x14, 9),
    (0x15, 1),
];

/// Idle, with no task's time to come soon: only ticks and 5s follow.
fn dead(table: &Table) -> bool {
    let soon = table.clock + 30 * u64::from(table.granule);
    table.queued == 0
        && !table.tasks.iter().any(|task| match task.state {
            State::Paused(time) | State::Due(time) => time <= soon,
            _ => false,
        })
}

/// No units, the most, a power of two, or any count.
fn some_count(rng: &mut Rng) -> u8 {
    match rng.below(4) {
        0 => 0,
        1 => 255,
        2 => 1 << rng.below(8),
        _ => rng.byte(),
    }
}

/// Mostly one of the first flags, so that sets, masks and alarms meet.
fn some_flag(rng: &mut Rng) -> u8 {
    if rng.one_in(8) {
        rng.pick(&[7, 8, 15, 16, 23, 24, 30, 31])
    } else {
        rng.below(3) as u8
    }
}

/// Mostly one of the first two subprograms, so that tasks meet there; now and then none.
fn some_sub(rng: &mut Rng) -> u8 {
    match rng.below(16) {
        0 => rng.pick(&[8, 9, 16, 255]),
        1 | 2 => rng.below(SUBS) as u8,
        _ => rng.below(2) as u8,
    }
}

/// A good configuration.
fn configuration(rng: &mut Rng) -> Vec<u8> {
    let granule = match rng.below(8) {
        0 => 255,
        1 => 1 + rng.below(255) as u8,
        _ => rng.pick(&[1, 10, 100]),
    };
    let mut bytes = vec![0x40, granule];
    let few = rng.one_in(2);
    for _ in 0..1 + rng.below(if few { 4 } else { TASKS }) {
        let own = if rng.one_in(2) { 7 } else { rng.below(16) as u8 };
        bytes.extend([0x41, own, u8::from(!rng.one_in(3))]);
    }
    bytes.push(0x42);
    bytes
}

/// A wrong configuration of each sort.
fn wrong_configuration(rng: &mut Rng) -> Vec<u8> {
    let task = [0x41, 7, 1];
    let tasks = |count: usize| [&[0x40, 10][..], &task.repeat(count), &[0x42]].concat();
    match rng.below(13) {
        0 => vec![],
        1 => tasks(0),
        2 => tasks(17),
        3 => tasks(1 + rng.below(16))[2..].to_vec(),
        4 => vec![0x40, 0, 0x41, 7, 1, 0x42],
        5 => vec![0x40, 10, 0x41, 16 + rng.below(240) as u8, 1, 0x42],
        6 => vec![0x40, 10, 0x41, 7, 2 + rng.below(254) as u8, 0x42],
        7 => vec![0x40, 10, 0x40, 10, 0x41, 7, 1, 0x42],
        8 => vec![0x40, 10, 0x41, 7, 1, 0x80, 0x42],
        9 => vec![0x40, 10, 0x41, 7, 1, rng.byte() | 0x04, 0x42],
        10 => vec![0x42],
        11 => {
            let whole = tasks(1 + rng.below(16));
            whole[..rng.below(whole.len())].to_vec()
        }
        _ => vec![rng.byte() & 0x3F, 10, 0x41, 7, 1, 0x42],
    }
}

/// A run with something wrong in it.
fn damaged_run(rng: &mut Rng) -> Vec<u8> {
    let steps = rng.below(30);
    let mut bytes = deep_run(rng, steps);
    let used = configuration_length(&bytes);
    match rng.below(8) {
        0 => bytes.truncate(rng.below(bytes.len() + 1)),
        1 => add_cut_record(rng, &mut bytes),
        2 => {
            let other = rng.byte();
            insert(rng, &mut bytes, &[other]);
        }
        3 => {
            let odd = rng.pick(&[&[0x40, 1][..], &[0x40], &[0x41, 7, 1], &[0x41, 7], &[0x42]]);
            insert(rng, &mut bytes, odd);
        }
        4 => {
            let unknown = rng.pick(&[0x08, 0x0C, 0x0D, 0x0E, 0x3F, 0x43, 0x7F, 0x81, 0xFF]);
            insert(rng, &mut bytes, &[unknown]);
        }
        5 => {
            for _ in 0..1 + rng.below(3) {
                let at = rng.below(bytes.len());
                bytes[at] = rng.byte();
            }
        }
        6 => drop(bytes.splice(..used, wrong_configuration(rng))),
        _ => {
            bytes.truncate(if rng.one_in(3) { 0 } else { used });
            bytes.extend((0..rng.below(60)).map(|_| rng.byte()));
        }
    }
    bytes
}

/// Adds a call that lacks some of its body's bytes.
fn add_cut_record(rng: &mut Rng, bytes: &mut Vec<u8>) {
    let (kind, length) = rng.pick(&CALLS[1..]);
    bytes.push(kind);
    bytes.extend((0..rng.below(length)).map(|_| rng.byte()));
}

fn configuration_length(bytes: &[u8]) -> usize {
    fresh_from_start(bytes).map_or(0, |(_, used)| used)
}

/// Puts bytes before some step, or after the last.
fn insert(rng: &mut Rng, bytes: &mut Vec<u8>, what: &[u8]) {
    let mut places = vec![configuration_length(bytes)];
    while let Ok((record, _)) = cut(&bytes[places[places.len() - 1]..]) {
        places.push(places[places.len() - 1] + record.len());
    }
    let at = rng.pick(&places);
    bytes.splice(at..at, what.iter().copied());
}

/// A run of a length near the longest, filled up with ticks or cut wherever its length ends.
fn long_run(rng: &mut Rng, turn: u64) -> Vec<u8> {
    const LENGTHS: [usize; 6] =
        [LONGEST_INPUT, LONGEST_INPUT - 1, LONGEST_INPUT + 1, LONGEST_INPUT - 100, LONGEST_INPUT / 4, LONGEST_INPUT];
    let length = LENGTHS[turn as usize % LENGTHS.len()];
    if turn % 6 == 3 {
        return hours_run(length);
    }
    let mut run = Run::new(rng, true);
    let filled = rng.one_in(2);
    while run.bytes.len() < length {
        let drawn = weights(rng);
        for _ in 0..200 {
            if filled && run.bytes.len() + 200 > length {
                run.add(&[0x80]);
            } else {
                run.go_on(rng, &drawn);
            }
            if filled && run.bytes.len() >= length {
                break;
            }
        }
    }
    run.bytes.truncate(length);
    run.bytes
}

/// Hours and minutes, at the largest granule, and ticks enough for them to pass.
fn hours_run(length: usize) -> Vec<u8> {
    let mut bytes = [&[0x40, 255][..], &[0x41, 7, 1].repeat(9), &[0x42]].concat();
    bytes.extend([0x02, 4, 1, 0x02, 3, 89, 0x01, 4, 2, 0x01, 0x84, 4, 0x02, 2, 255]);
    bytes.extend([0x0A, 1, 0, 0, 2, 1, 0x0B, 4, 3, 9, 0x0B, 3, 200, 0, 0x01, 3, 30, 0x02, 4, 255]);
    while bytes.len() < length - 9 {
        bytes.push(0x80);
    }
    bytes.resize(length, 0x00);
    bytes
}
