//! A trace: a line a step with the state of every task, separated by tabs. The picture is drawn of it.

use crate::image::{State, Table};
use crate::run::{Run, Step};
use crate::words::{flags_of, Names};

/// The columns before the tasks'.
pub const COLUMNS: [&str; 8] = ["step", "record", "number", "ZVC", "clock", "active", "flags", "queued"];

/// The trace of a run: a head, the fresh table as step 0, and the steps.
pub fn trace(run: &Run, names: &Names) -> String {
    let fresh = crate::image::read(&run.fresh);
    let named = |kind: &str, n: u8, name: Option<&str>| name.map(|name| format!("# {kind} {n} {name}\n"));
    let mut text: String = fresh.numbers().filter_map(|k| named("task", k, names.of_task(k))).collect();
    text.extend((0..32).filter_map(|n| named("flag", n, names.of_flag(n))));
    let head = COLUMNS.iter().map(|word| word.to_string());
    text += &line(head.chain(fresh.numbers().map(|k| format!("task {k}"))));
    text += &row(0, None, &fresh);
    for (step, n) in run.steps.iter().zip(1..) {
        text += &row(n, Some(step), &step.table);
    }
    text
}

fn line(cells: impl Iterator<Item = String>) -> String {
    cells.collect::<Vec<_>>().join("\t") + "\n"
}

fn row(n: usize, step: Option<&Step>, table: &Table) -> String {
    let bit = |set: bool| u8::from(set).to_string();
    let record = step.map_or("-".to_string(), |step| hex(&step.record));
    let zvc = step.map_or("000".to_string(), |step| [step.z, step.v, step.c].map(bit).concat());
    let cells = [
        n.to_string(),
        record,
        step.map_or(0, |step| step.number).to_string(),
        zvc,
        table.clock.to_string(),
        table.active().to_string(),
        set_flags(table.flags),
        table.queued.to_string(),
    ];
    line(cells.into_iter().chain(table.numbers().map(|k| state(table.state(k)))))
}

fn hex(bytes: &[u8]) -> String {
    bytes.iter().map(|byte| format!("{byte:02X}")).collect()
}

/// The flags that are set, or a stroke.
fn set_flags(flags: u32) -> String {
    if flags == 0 {
        return "-".to_string();
    }
    flags_of(flags).iter().map(u8::to_string).collect::<Vec<_>>().join(",")
}

fn state(state: State) -> String {
    match state {
        State::Dormant => "dormant".to_string(),
        State::Ready => "ready".to_string(),
        State::Paused(time) => format!("paused:{time}"),
        State::Due(time) => format!("due:{time}"),
        State::Any(mask) => format!("any:{}", set_flags(mask)),
        State::All(mask) => format!("all:{}", set_flags(mask)),
        State::AwaitStart => "start".to_string(),
        State::AwaitEnd => "end".to_string(),
        State::AwaitSub(number) => format!("subprogram:{number}"),
        State::AwaitMessage(sender) => format!("message:{sender}"),
        State::Stray(byte) => format!("state:{byte}"),
    }
}
