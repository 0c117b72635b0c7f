//! A trace, read again: what stands in its lines, for a picture of it.

use crate::trace::COLUMNS;

/// What a task is seen to do in a picture.
#[derive(Clone, Copy, PartialEq, Eq)]
pub enum Look {
    Active,
    Ready,
    Paused,
    Due,
    Flags,
    Start,
    End,
    Sub,
    Message,
    Dormant,
}

/// A line of a trace.
pub struct Line {
    pub record: Vec<u8>,
    pub number: u8,
    pub clock: u64,
    pub active: u8,
    pub flags: Vec<u8>,
    pub queued: u8,
    pub looks: Vec<Look>,
}

/// A whole trace: the names that it gives, and its lines.
pub struct Tracks {
    pub tasks: Vec<String>,
    flags: Vec<(u8, String)>,
    pub lines: Vec<Line>,
}

/// Reads a trace; else says which line is none.
pub fn tracks(text: &str) -> Result<Tracks, String> {
    let mut tracks = Tracks { tasks: Vec::new(), flags: Vec::new(), lines: Vec::new() };
    let mut named: Vec<(u8, String)> = Vec::new();
    for (i, text) in text.lines().enumerate() {
        let wrong = || format!("line {} is no line of a trace.", i + 1);
        if let Some(name) = text.strip_prefix("# ") {
            let (kind, rest) = name.split_once(' ').ok_or_else(wrong)?;
            let (number, name) = rest.split_once(' ').ok_or_else(wrong)?;
            let list = if kind == "flag" { &mut tracks.flags } else { &mut named };
            list.push((number.parse().map_err(|_| wrong())?, name.to_string()));
        } else if text.starts_with(COLUMNS[0]) {
            tracks.tasks = text.split('\t').skip(COLUMNS.len()).map(str::to_string).collect();
        } else {
            tracks.lines.push(line(text).ok_or_else(wrong)?);
        }
    }
    for (number, name) in named {
        if let Some(task) = tracks.tasks.get_mut(usize::from(number).wrapping_sub(1)) {
            *task = format!("{number} {name}");
        }
    }
    if tracks.lines.is_empty() {
        return Err("the trace has no lines.".to_string());
    }
    match tracks.lines.iter().all(|line| line.looks.len() == tracks.tasks.len()) {
        true => Ok(tracks),
        false => Err("some line of the trace has more or fewer tasks than its head.".to_string()),
    }
}

fn line(text: &str) -> Option<Line> {
    let cells: Vec<&str> = text.split('\t').collect();
    let states = cells.get(COLUMNS.len()..)?;
    let active = cells[5].parse().ok()?;
    let looks = states.iter().zip(1..).map(|(state, k)| look(state, k == active)).collect::<Option<_>>()?;
    let flags = cells[6].split(',').filter(|flag| *flag != "-").map(|flag| flag.parse().ok());
    Some(Line {
        record: record(cells[1])?,
        number: cells[2].parse().ok()?,
        clock: cells[4].parse().ok()?,
        active,
        flags: flags.collect::<Option<_>>()?,
        queued: cells[7].parse().ok()?,
        looks,
    })
}

/// A record in hex; none for the fresh table.
fn record(hex: &str) -> Option<Vec<u8>> {
    if hex == "-" {
        return Some(Vec::new());
    }
    (0..hex.len()).step_by(2).map(|i| u8::from_str_radix(hex.get(i..i + 2)?, 16).ok()).collect()
}

fn look(state: &str, active: bool) -> Option<Look> {
    Some(match state.split(':').next()? {
        "ready" if active => Look::Active,
        "ready" => Look::Ready,
        "paused" => Look::Paused,
        "due" => Look::Due,
        "any" | "all" => Look::Flags,
        "start" => Look::Start,
        "end" => Look::End,
        "subprogram" => Look::Sub,
        "message" => Look::Message,
        "dormant" => Look::Dormant,
        _ => return None,
    })
}

impl Tracks {
    /// The name of a flag's row.
    pub fn flag(&self, number: u8) -> String {
        let name = self.flags.iter().find(|(known, _)| *known == number).map(|(_, name)| name.clone());
        name.unwrap_or(format!("flag {number}"))
    }

    /// The flags that are ever set, or are named.
    pub fn used_flags(&self) -> Vec<u8> {
        let set = |n: &u8| self.lines.iter().any(|line| line.flags.contains(n));
        (0..32).filter(|n| set(n) || self.flags.iter().any(|(known, _)| known == n)).collect()
    }
}

impl Line {
    /// Whether it is a tick, or the fresh table.
    pub fn is_tick(&self) -> bool {
        matches!(self.record.first(), None | Some(0x80))
    }

    /// Whether it is seen to be as another: nobody's state, no flag and no request has changed.
    pub fn shows_as(&self, other: &Line) -> bool {
        self.looks == other.looks && self.flags == other.flags && self.queued == other.queued
    }
}
