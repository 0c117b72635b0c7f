//! What the walk through a run is varied by: edits of a table, damage to an image, bad records.

use model::check::well_formed;
use model::runs::Rng;
use model::table::{
    Mail, Message, Request, State, Sub, Table, Task, FLAGS, LAST_CLOCK, LONGEST, MESSAGES, PLACES, SUBS, TASKS,
};

type Edit = fn(&mut Table, &mut Rng);

/// Edits that mostly keep a table well formed.
const EDITS: [Edit; 12] = [clock, forward, own, runs, flags, timed, waits, fill_pool, move_end, to_end, share, mail];

/// Edits that mostly break one rule, by as little as they can.
const BREAKS: [Edit; 14] = [
    bad_time,
    bad_alarm,
    bad_entry,
    bad_queue,
    bad_place,
    bad_link,
    two_waiters,
    bad_count,
    bad_clock,
    bad_levels,
    bad_holder,
    bad_line,
    bad_message,
    bad_mail,
];

/// The table after an edit that keeps it well formed.
pub fn edited(table: &Table, rng: &mut Rng) -> Table {
    let mut next = *table;
    rng.pick(&EDITS)(&mut next, rng);
    next.levels = next.ready_levels();
    if well_formed(&next) {
        next
    } else {
        *table
    }
}

/// The table with a rule broken, or now and then none.
pub fn broken(table: &Table, rng: &mut Rng) -> Table {
    let mut next = *table;
    rng.pick(&BREAKS)(&mut next, rng);
    next
}

/// The table with some of its tasks waiting on one another, in a row: the last on one of them, so that they end in a
/// ring, or on nobody. Waits of before are gone.
pub fn chained(table: &Table, rng: &mut Rng) -> Table {
    let mut next = *table;
    next.pool = Default::default();
    next.asked = 0;
    next.subs = Default::default();
    for task in &mut next.tasks {
        task.end_waiter = 0;
        if let State::WaitStart | State::WaitEnd | State::WaitSub(_) = task.state {
            *task = Task { own: task.own, ..Task::default() };
        }
    }
    let mut row: Vec<u8> = (1..=table.count).collect();
    for at in 1..row.len() {
        row.swap(at, rng.below(at + 1));
    }
    if rng.one_in(2) {
        row.truncate(1 + rng.below(table.count as usize));
    }
    row.iter().for_each(|number| make_busy(&mut next, *number, rng));
    if !rng.one_in(3) {
        row.push(rng.pick(&row));
    }
    for pair in row.windows(2) {
        make_wait(&mut next, pair[0], pair[1], rng);
    }
    if rng.one_in(2) {
        fill_pool(&mut next, rng);
    }
    next.levels = next.ready_levels();
    next
}

/// A dormant task gets a run, paused.
fn make_busy(table: &mut Table, number: u8, rng: &mut Rng) {
    let state = State::Paused(ahead(table, rng));
    let task = &mut table.tasks[number as usize - 1];
    if task.state == State::Dormant {
        *task = Task { state, priority: rng.below(16) as u8, ..*task };
    }
}

/// A task leaves whatever it does, and waits on another: for a subprogram that this one holds, for the start or the end
/// of a request's run, or of its own. On itself it waits for a subprogram, or not at all.
fn make_wait(table: &mut Table, waiter: u8, on: u8, rng: &mut Rng) {
    let holds = |sub: &Sub| sub.holder == on || sub.holder == 0;
    let held: Vec<usize> = (0..SUBS).filter(|place| holds(&table.subs[*place])).collect();
    if waiter == on && held.is_empty() {
        return;
    }
    if let Some(place) = table.queue.iter().position(|ready| *ready == waiter) {
        table.queue.copy_within(place + 1.., place);
        table.queue[TASKS - 1] = 0;
        table.queued -= 1;
    }
    if waiter == on || !held.is_empty() && rng.one_in(3) {
        let place = rng.pick(&held);
        table.subs[place].holder = on;
        stand_in(table, waiter, place);
        return;
    }
    let start = rng.one_in(3);
    table.task_mut(waiter).state = if start { State::WaitStart } else { State::WaitEnd };
    if !start && rng.one_in(2) && table.task(on).end_waiter == 0 {
        table.task_mut(on).end_waiter = waiter;
        return;
    }
    let request = Request { task: on, priority: rng.below(16) as u8, ..Request::default() };
    table.pool[table.asked as usize] =
        if start { Request { start_waiter: waiter, ..request } } else { Request { end_waiter: waiter, ..request } };
    table.asked += 1;
}

/// One to several bytes of the image are changed: by one, by one bit, or to any.
pub fn damage(image: &mut [u8], rng: &mut Rng) {
    let many = if rng.one_in(3) { 5 } else { 1 };
    for _ in 0..1 + rng.below(many) {
        let at = rng.below(image.len());
        image[at] = match rng.below(4) {
            0 => image[at].wrapping_add(1),
            1 => image[at].wrapping_sub(1),
            2 => image[at] ^ 1 << rng.below(8),
            _ => rng.byte(),
        };
    }
}

/// A record that is empty, cut, too long, of another kind, with another byte in it, or any bytes.
pub fn bad_record(record: &[u8], rng: &mut Rng) -> Vec<u8> {
    let mut bad = record.to_vec();
    let at = rng.below(record.len());
    match rng.below(8) {
        0 => bad.clear(),
        1 => bad.truncate(at),
        2 => bad.push(rng.byte()),
        3 => bad[0] = rng.pick(&[0x08, 0x0C, 0x0D, 0x3F, 0x40, 0x41, 0x42, 0x43, 0x81, 0xFF]),
        4 => bad[0] = rng.byte(),
        5 | 6 => bad[at] = rng.pick(&[0, 2, 3, 4, 5, 6, 0x10, 0x11, 0x1F, 0x20, 0x40, 0x60, 0x80]),
        _ => bad = (0..rng.below(9)).map(|_| rng.byte() & 0x0F).collect(),
    }
    bad
}

/// A time ahead of the clock, the nearest and the farthest among them.
fn ahead(table: &Table, rng: &mut Rng) -> u64 {
    table.clock
        + match rng.below(4) {
            0 => 1,
            1 => LONGEST,
            2 => 1 + rng.below(600) as u64,
            _ => 1 + rng.below(LONGEST as usize) as u64,
        }
}

fn mask(rng: &mut Rng) -> u32 {
    (0..1 + rng.below(3)).fold(0, |mask, _| mask | 1 << rng.below(FLAGS))
}

fn busy(table: &Table) -> Vec<u8> {
    (1..=table.count).filter(|&number| table.task(number).state != State::Dormant).collect()
}

fn dormant(table: &Table) -> Vec<u8> {
    (1..=table.count).filter(|&number| table.task(number).state == State::Dormant).collect()
}

/// The clock is carried close to its end, or anywhere, and every time with it.
fn clock(table: &mut Table, rng: &mut Rng) {
    let clock = match rng.below(4) {
        0 => LAST_CLOCK - rng.below(300) as u64,
        1 => rng.below(1000) as u64,
        _ => rng.below(LAST_CLOCK as usize + 1) as u64,
    };
    let carried = |time: u64| time - table.clock + clock;
    for task in &mut table.tasks {
        if let State::Paused(time) | State::Due(time) = &mut task.state {
            *time = carried(*time);
        }
        task.started = task.started.min(clock);
    }
    for time in table.alarms.iter_mut().filter(|time| **time != 0) {
        *time = carried(*time);
    }
    table.clock = clock;
}

/// The clock comes to just before the next stored time, and nothing else changes.
fn forward(table: &mut Table, _: &mut Rng) {
    let waits = table.tasks.iter().filter_map(|task| task.state.time());
    let alarms = table.alarms.iter().copied().filter(|time| *time != 0);
    if let Some(next) = waits.chain(alarms).min() {
        table.clock = next - 1;
    }
}

fn own(table: &mut Table, rng: &mut Rng) {
    table.granule = 1 + rng.below(255) as u8;
    for task in &mut table.tasks[..table.count as usize] {
        task.own = rng.below(16) as u8;
    }
}

/// Other priorities, arguments and scheduled starts, and the queue and the subprograms' lines sorted again.
fn runs(table: &mut Table, rng: &mut Rng) {
    let clock = table.clock as usize;
    for number in busy(table) {
        let task = &mut table.tasks[number as usize - 1];
        task.priority = rng.below(16) as u8;
        task.argument = u16::from_be_bytes([rng.byte(), rng.byte()]);
        let any = rng.below(clock + 1);
        task.started = rng.pick(&[0, clock, any, any]) as u64;
    }
    let tasks = table.tasks;
    let lines = table.subs.iter_mut().map(|sub| &mut sub.line[..sub.waiting as usize]);
    for line in lines.chain([&mut table.queue[..table.queued as usize]]) {
        line.sort_by_key(|&number| 15 - tasks[number as usize - 1].priority);
    }
}

/// Other flags, and other alarms.
fn flags(table: &mut Table, rng: &mut Rng) {
    for _ in 0..1 + rng.below(4) {
        let flag = rng.below(FLAGS);
        table.flags ^= 1 << flag;
        table.alarms[rng.below(FLAGS)] = ahead(table, rng);
        table.alarms[flag] = 0;
    }
}

/// Another time, or the other of pause and restart.
fn timed(table: &mut Table, rng: &mut Rng) {
    for at in 0..TASKS {
        if let State::Paused(_) | State::Due(_) = table.tasks[at].state {
            let time = ahead(table, rng);
            table.tasks[at].state = rng.pick(&[State::Paused(time), State::Due(time)]);
        }
    }
}

/// Pauses and waits for flags change into one another.
fn waits(table: &mut Table, rng: &mut Rng) {
    for at in 0..TASKS {
        let (time, mask) = (ahead(table, rng), mask(rng));
        let states =
            [State::Paused(time), State::Due(time), State::WaitAny(mask), State::WaitAll(mask | table.flags & 3)];
        match table.tasks[at].state {
            State::Paused(_) | State::Due(_) | State::WaitAny(_) | State::WaitAll(_) => {
                let open = states.map(|state| !table.condition(state));
                let drawn = rng.below(4);
                table.tasks[at].state = states[if open[drawn] { drawn } else { 0 }];
            }
            _ => {}
        }
    }
}

/// The pool is filled, or nearly, with requests for busy tasks, and turned.
fn fill_pool(table: &mut Table, rng: &mut Rng) {
    let busy = busy(table);
    let full = PLACES - rng.pick(&[0, 0, 1, 8]);
    while !busy.is_empty() && (table.asked as usize) < full {
        table.pool[table.asked as usize] = Request {
            task: rng.pick(&busy),
            priority: rng.below(16) as u8,
            argument: u16::from_be_bytes([rng.byte(), rng.byte()]),
            ..Request::default()
        };
        table.asked += 1;
    }
    let turn = rng.below(table.asked as usize + 1);
    table.pool[..table.asked as usize].rotate_left(turn);
}

/// A link to an end-waiter goes from a run to another run.
fn move_end(table: &mut Table, rng: &mut Rng) {
    let busy = busy(table);
    let linked = table.tasks.iter().position(|task| task.end_waiter != 0);
    if let Some(from) = linked {
        let to = rng.pick(&busy) as usize - 1;
        let waiter = std::mem::take(&mut table.tasks[from].end_waiter);
        table.tasks[to].end_waiter = waiter;
    }
}

/// Who waits for a request's start waits for the end of its run instead.
fn to_end(table: &mut Table, _: &mut Rng) {
    if let Some(request) = table.pool.iter_mut().find(|place| place.start_waiter != 0) {
        request.end_waiter = std::mem::take(&mut request.start_waiter);
        table.tasks[request.end_waiter as usize - 1].state = State::WaitEnd;
    }
}

/// A task that is in no queue waits in the line of a subprogram, behind its equals.
fn stand_in(table: &mut Table, waiter: u8, place: usize) {
    table.task_mut(waiter).state = State::WaitSub(place as u8);
    let tasks = table.tasks;
    let sub = &mut table.subs[place];
    sub.line[sub.waiting as usize] = waiter;
    sub.waiting += 1;
    sub.line[..sub.waiting as usize].sort_by_key(|&number| 15 - tasks[number as usize - 1].priority);
}

/// Some subprograms have another holder, or none where nobody waits; some that waited for a time or for flags wait for
/// a subprogram that is held.
fn share(table: &mut Table, rng: &mut Rng) {
    let busy = busy(table);
    for _ in 0..1 + rng.below(3) {
        let sub = &mut table.subs[rng.below(SUBS)];
        if !busy.is_empty() {
            sub.holder = if sub.waiting == 0 && rng.one_in(3) { 0 } else { rng.pick(&busy) };
        }
    }
    let held: Vec<usize> = (0..SUBS).filter(|place| table.subs[*place].holder != 0).collect();
    for number in busy {
        let timed = matches!(
            table.task(number).state,
            State::Paused(_) | State::Due(_) | State::WaitAny(_) | State::WaitAll(_)
        );
        if timed && !held.is_empty() && rng.one_in(2) {
            stand_in(table, number, rng.pick(&held));
        }
    }
}

fn text(rng: &mut Rng) -> [u8; 8] {
    [rng.byte(), 0, 0, 0, 0, 0, 0, rng.byte()]
}

/// Some that waited for a time or for flags wait for a message instead, some tasks have one in their entry, and
/// messages wait, sometimes as many as may; those that would fit a task that waits are left out.
fn mail(table: &mut Table, rng: &mut Rng) {
    let any = |rng: &mut Rng| 1 + rng.below(table.count as usize) as u8;
    let drawn: Vec<Message> = (0..rng.pick(&[1, 4, 33]))
        .map(|_| Message { to: any(rng), sender: any(rng), priority: rng.below(16) as u8, text: text(rng) })
        .collect();
    for number in busy(table) {
        let sender = rng.below(table.count as usize + 1) as u8;
        let timed = matches!(
            table.task(number).state,
            State::Paused(_) | State::Due(_) | State::WaitAny(_) | State::WaitAll(_)
        );
        if timed && rng.one_in(3) && !table.waiting().iter().any(|message| message.fits(number, sender)) {
            table.task_mut(number).state = State::WaitMessage(sender);
        } else if rng.one_in(3) {
            table.task_mut(number).mail = Mail { sender: sender.max(1), text: text(rng) };
        }
    }
    for message in drawn {
        if (table.sent as usize) < MESSAGES && !table.awaits(message.to, message.sender) {
            table.post(message);
        }
    }
}

/// The word of the ready levels with a bit too many, a bit missing, the bit of a task that is not ready, or none.
fn bad_levels(table: &mut Table, rng: &mut Rng) {
    let task = table.tasks[rng.below(TASKS)];
    match rng.below(4) {
        0 => table.levels |= 1 << rng.below(16),
        1 => table.levels &= !(1 << task.priority),
        2 => table.levels |= 1 << task.priority,
        _ => table.levels = 0,
    }
}

/// A pause or restart at the clock, or one ms too far.
fn bad_time(table: &mut Table, rng: &mut Rng) {
    let wrong = table.clock + rng.pick(&[0, LONGEST + 1]);
    for task in &mut table.tasks {
        if let State::Paused(time) | State::Due(time) = &mut task.state {
            *time = wrong;
        }
    }
}

fn bad_alarm(table: &mut Table, rng: &mut Rng) {
    let far = LONGEST + 1;
    table.alarms[rng.below(FLAGS)] = table.clock + rng.pick(&[0, far, u64::MAX - table.clock]);
}

/// A number of some entry that is just out of its range, or stands where zeros belong.
fn bad_entry(table: &mut Table, rng: &mut Rng) {
    let task = &mut table.tasks[rng.below(TASKS)];
    match rng.below(7) {
        0 => task.own = 16,
        1 => task.priority = 16,
        2 => task.priority ^= 1,
        3 => task.argument ^= 1,
        4 => task.started = table.clock + 1,
        5 => task.end_waiter = 1 + rng.below(17) as u8,
        _ => task.state = State::WaitAll(table.flags & 7),
    }
}

fn bad_queue(table: &mut Table, rng: &mut Rng) {
    let (one, other) = (rng.below(TASKS), rng.below(TASKS));
    match rng.below(4) {
        0 => table.queue.swap(one, other),
        1 => table.queue[one] = table.queue[other],
        2 => table.queued = table.queued.wrapping_sub(1),
        _ => table.queued += 1,
    }
}

fn bad_place(table: &mut Table, rng: &mut Rng) {
    let place = rng.below((table.asked as usize + 2).min(PLACES));
    let dormant = dormant(table);
    let request = &mut table.pool[place];
    match rng.below(7) {
        0 => request.task = rng.below(18) as u8,
        1 => request.priority = 16,
        2 => request.argument ^= 1,
        3 => *request = Request::default(),
        4 => table.asked = table.asked.wrapping_sub(1),
        5 => table.asked += 1,
        _ if dormant.is_empty() => request.task = 0,
        _ => request.task = rng.pick(&dormant),
    }
}

/// A waiter that is named twice, by itself, or by nobody.
fn bad_link(table: &mut Table, rng: &mut Rng) {
    let waiter = rng.below(table.count as usize + 1) as u8;
    let request = &mut table.pool[rng.below((table.asked as usize).max(1))];
    match rng.below(4) {
        0 => request.start_waiter = waiter,
        1 => request.end_waiter = waiter,
        2 => request.end_waiter = request.task,
        _ => table.tasks[rng.below(table.count as usize)].end_waiter = waiter,
    }
}

/// A request that names a waiter for its start gets one for the end of its run as well.
fn two_waiters(table: &mut Table, _: &mut Rng) {
    let places = table.pool.iter_mut().map(|place| &mut place.end_waiter);
    let mut ends = places.chain(table.tasks.iter_mut().map(|task| &mut task.end_waiter));
    let waiter = ends.find(|waiter| **waiter != 0).map(std::mem::take);
    let request = table.pool.iter_mut().find(|place| place.start_waiter != 0);
    if let (Some(waiter), Some(request)) = (waiter, request) {
        request.end_waiter = waiter;
    }
}

/// The first subprogram with a line of so many, others aside, or the first of all.
fn lined(table: &mut Table, least: u8) -> &mut Sub {
    let place = table.subs.iter().position(|sub| sub.waiting >= least).unwrap_or(0);
    &mut table.subs[place]
}

/// A subprogram with a holder that is dormant, is no task, or is missing where somebody waits.
fn bad_holder(table: &mut Table, rng: &mut Rng) {
    share(table, rng);
    let dormant = dormant(table);
    match rng.below(3) {
        0 if !dormant.is_empty() => table.subs[rng.below(SUBS)].holder = rng.pick(&dormant),
        1 => table.subs[rng.below(SUBS)].holder = table.count + rng.pick(&[1, 1, 16, 255 - table.count]),
        _ => lined(table, 1).holder = 0,
    }
}

/// A line with one in it twice, with two out of the order of priority, with one too many or too few, or with something
/// behind it; a task that waits for no subprogram, or for one in whose line it does not stand.
fn bad_line(table: &mut Table, rng: &mut Rng) {
    share(table, rng);
    let any = rng.below(table.count as usize);
    let (number, far) = (any as u8 + 1, rng.below(TASKS));
    match rng.below(8) {
        0 => {
            let sub = lined(table, 2);
            sub.line[1] = sub.line[0];
        }
        1 => {
            let sub = lined(table, 1);
            sub.line[sub.waiting as usize % TASKS] = sub.line[0];
            sub.waiting += 1;
        }
        2 => {
            let sub = lined(table, 2);
            sub.line.swap(0, (sub.waiting as usize).max(1) - 1);
        }
        3 => lined(table, 1).line[far] = number,
        4 => lined(table, 1).waiting = rng.pick(&[0, 1, 2, 3, 16, 17]),
        5 => lined(table, 1).line[TASKS - 1] = number,
        6 => {
            let waits = |task: &&mut Task| matches!(task.state, State::WaitSub(_));
            if let Some(task) = table.tasks.iter_mut().find(waits) {
                task.state = State::WaitSub(rng.pick(&[7, 8, 255]));
            }
        }
        _ => table.tasks[any].state = State::WaitSub(rng.below(9) as u8),
    }
}

/// A message that fits a task that waits, two out of order, one out of its range, one too many or too few, or something
/// behind them.
fn bad_message(table: &mut Table, rng: &mut Rng) {
    mail(table, rng);
    let (sent, count) = (table.sent as usize, table.count);
    let place = rng.below(sent.max(1));
    let waiter = (1..=count).find(|number| matches!(table.task(*number).state, State::WaitMessage(_)));
    let wanted = match waiter.map(|number| table.task(number).state) {
        Some(State::WaitMessage(sender)) => sender.max(1),
        _ => 1,
    };
    match rng.below(8) {
        0 | 1 => {
            let last = table.messages[sent.max(1) - 1].priority;
            table.messages[sent.min(MESSAGES - 1)] =
                Message { to: waiter.unwrap_or(0), sender: wanted, priority: last, text: text(rng) };
            table.sent = (sent + 1).min(MESSAGES) as u8;
        }
        2 => table.messages.swap(0, sent.max(1) - 1),
        3 => table.messages[place].to = rng.pick(&[0, count + 1, 255]),
        4 => table.messages[place].sender = rng.pick(&[0, count + 1, 255]),
        5 => table.messages[place].priority = rng.pick(&[0, 15, 16]),
        6 => table.messages[MESSAGES - 1].text[7] ^= 1,
        _ => table.sent = rng.pick(&[0, table.sent.wrapping_sub(1), table.sent + 1, 33]),
    }
}

/// A message in an entry that has none: past the count, of a dormant task, or from no task; or a wait for no task's.
fn bad_mail(table: &mut Table, rng: &mut Rng) {
    mail(table, rng);
    let (count, at) = (table.count, rng.below(TASKS));
    let sleeper = dormant(table).first().map_or(at, |number| *number as usize - 1);
    match rng.below(5) {
        0 => table.tasks[at].mail.sender = rng.pick(&[1, count + 1, 255]),
        1 => table.tasks[sleeper].mail.text[0] ^= 1,
        2 => table.tasks[TASKS - 1].mail.text[7] ^= 1,
        3 => table.tasks[at].state = State::WaitMessage(rng.pick(&[0, count + 1])),
        _ => {
            let waits = |task: &&mut Task| matches!(task.state, State::WaitMessage(_));
            if let Some(task) = table.tasks.iter_mut().find(waits) {
                task.state = State::WaitMessage(rng.pick(&[count + 1, 17, 255]));
            }
        }
    }
}

/// Another count, or a table without tasks.
fn bad_count(table: &mut Table, rng: &mut Rng) {
    match rng.below(4) {
        0 => table.count = 17,
        1 => table.count -= 1,
        2 => table.count += 1,
        _ => *table = Table { granule: table.granule, clock: table.clock, ..Table::default() },
    }
}

fn bad_clock(table: &mut Table, rng: &mut Rng) {
    match rng.below(4) {
        0 => table.granule = 0,
        1 => table.clock = LAST_CLOCK + 1,
        2 => table.clock += 1,
        _ => table.clock = u64::MAX,
    }
}
