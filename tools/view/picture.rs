//! A picture of a run: a row a task, a column a step; calls as dots with their names, flags below, time above.

use crate::svg::{width, Svg};
use crate::tracks::{Line, Look, Tracks};
use crate::words::time;

/// Of each look: its words, its letter, its colour and its letter's. Any two colours are apart by 29 and more (CIE 1976
/// difference), also as the three kinds of colour-blindness see them.
const LOOKS: [(Look, &str, &str, &str, &str); 10] = [
    (Look::Active, "active", "A", "#005a9c", "#ffffff"),
    (Look::Ready, "ready, passed over", "R", "#a9d5f5", "#10202c"),
    (Look::Paused, "paused", "P", "#fff08a", "#2b2700"),
    (Look::Due, "due to restart", "D", "#e39a10", "#2b1d00"),
    (Look::Flags, "waits for flags", "F", "#9c3503", "#ffffff"),
    (Look::Start, "waits for a start", "S", "#969696", "#111111"),
    (Look::End, "waits for an end", "E", "#363636", "#ffffff"),
    (Look::Sub, "waits for a subprogram", "W", "#9000f0", "#ffffff"),
    (Look::Message, "waits for a message", "M", "#d870ff", "#22082c"),
    (Look::Dormant, "dormant", "", "none", ""),
];

const TOP: f64 = 44.0;
const ROW: f64 = 22.0;
const FLAG: f64 = 14.0;
/// The widths of a column, of a tick and of a call, before they are scaled.
const TICK: f64 = 6.0;
const CALL: f64 = 12.0;
/// As many quiet ticks in a row have their full width.
const QUIET: f64 = 24.0;
/// The width that a short run is scaled to.
const WHOLE: f64 = 470.0;
const MARGIN: f64 = 8.0;
/// The name of the requests' row.
const REQUESTS: &str = "requests";
/// The dot of a call that was refused.
const REFUSED: &str = "class=\"dot\" style=\"fill:#e0203a\"";

struct Picture<'a> {
    tracks: &'a Tracks,
    svg: Svg,
    /// Where each column begins, and where the last ends.
    columns: Vec<f64>,
    flags: Vec<u8>,
    /// Whether any request is ever queued.
    requests: bool,
}

/// The picture of a trace, as an SVG file.
pub fn picture(tracks: &Tracks, title: &str) -> String {
    let flags = tracks.used_flags();
    let columns = columns(tracks, &flags);
    let requests = tracks.lines.iter().any(|line| line.queued > 0);
    let mut picture = Picture { tracks, svg: Svg::new(), columns, flags, requests };
    let whole = picture.end().max(WHOLE - MARGIN) + MARGIN;
    picture.svg.words(MARGIN, 16.0, "class=\"title\"", title);
    picture.ticks();
    for k in 0..tracks.tasks.len() {
        picture.task(k);
    }
    picture.rows_below();
    let below = picture.calls();
    let height = picture.legend(below, whole);
    picture.svg.file(whole, height, title)
}

/// Where the columns begin: behind the rows' names, each as wide as its step is, scaled to the whole.
fn columns(tracks: &Tracks, flags: &[u8]) -> Vec<f64> {
    let tasks = tracks.tasks.iter().map(|name| width(name, 10.0));
    let names = tasks.chain(flags.iter().map(|n| width(&tracks.flag(*n), 9.0))).chain([width(REQUESTS, 9.0)]);
    let left = names.fold(0.0, f64::max) + 2.0 * MARGIN;
    let widths = widths(&tracks.lines);
    let sum: f64 = widths.iter().sum();
    let scale = ((WHOLE - left - MARGIN) / sum).clamp(0.9, 2.0);
    let mut at = left;
    let mut columns = vec![left];
    for width in widths {
        at += width * scale;
        columns.push(at);
    }
    columns
}

/// The width of each column, before it is scaled. Many ticks in a row that change nothing are drawn closer together.
fn widths(lines: &[Line]) -> Vec<f64> {
    let quiet = |i: usize| i > 0 && lines[i].is_tick() && lines[i].shows_as(&lines[i - 1]);
    let mut widths = Vec::with_capacity(lines.len());
    while widths.len() < lines.len() {
        let from = widths.len();
        let many = (from..lines.len()).take_while(|i| quiet(*i)).count();
        if many > 0 {
            let width = TICK * f64::min(1.0, QUIET / many as f64);
            widths.resize(from + many, width);
        } else {
            widths.push(if lines[from].is_tick() { TICK } else { CALL });
        }
    }
    widths
}

impl Picture<'_> {
    fn end(&self) -> f64 {
        *self.columns.last().unwrap_or(&0.0)
    }

    /// The top of the flags' rows.
    fn flags_top(&self) -> f64 {
        TOP + ROW * self.tracks.tasks.len() as f64 + 4.0
    }

    fn bottom(&self) -> f64 {
        self.flags_top() + FLAG * (self.flags.len() + usize::from(self.requests)) as f64
    }

    /// Shades the ticks, and writes the time above as often as it fits.
    fn ticks(&mut self) {
        let lines = &self.tracks.lines;
        let mut from = 0;
        while from < lines.len() {
            let many = lines[from..].iter().take_while(|line| line.is_tick()).count();
            if many > 0 {
                let size = (self.columns[from + many] - self.columns[from], self.bottom() - TOP + 4.0);
                self.svg.rect((self.columns[from], TOP - 4.0), size, "class=\"tick\"", "");
            }
            from += many.max(1);
        }
        let labels = labels(lines, &self.columns);
        for (x, label) in labels {
            self.svg.words(x, TOP - 10.0, "class=\"middle\"", &label);
            self.svg.upright_line(x, TOP - 7.0, self.bottom());
        }
    }

    /// The row of a task: its name, a block for each time that it is seen to do one thing, and its calls.
    fn task(&mut self, k: usize) {
        let y = TOP + ROW * k as f64;
        let name = self.tracks.tasks[k].clone();
        self.svg.words(MARGIN, y + ROW / 2.0 + 3.5, "", &name);
        let lines = &self.tracks.lines;
        let mut from = 0;
        for i in 1..=lines.len() {
            if i == lines.len() || lines[i].looks[k] != lines[from].looks[k] {
                self.block(k, from, i);
                from = i;
            }
        }
        let calls: Vec<usize> = (0..lines.len()).filter(|i| self.is_call_of(k, *i)).collect();
        for i in calls {
            let look = if lines[i].number == 0 { "class=\"dot\"" } else { REFUSED };
            self.svg.dot(self.middle(i), y + ROW / 2.0, look);
        }
    }

    fn middle(&self, i: usize) -> f64 {
        (self.columns[i] + self.columns[i + 1]) / 2.0
    }

    /// Whether step i is a call of the task at place k.
    fn is_call_of(&self, k: usize, i: usize) -> bool {
        let lines = &self.tracks.lines;
        i > 0 && !lines[i].is_tick() && usize::from(lines[i - 1].active) == k + 1
    }

    /// A block from step to step, with its letter where there is room beside the dots.
    fn block(&mut self, k: usize, from: usize, to: usize) {
        let lines = &self.tracks.lines;
        let look = lines[from].looks[k];
        let (_, words, letter, colour, ink) = LOOKS.iter().find(|row| row.0 == look).unwrap_or(&LOOKS[7]);
        let y = TOP + ROW * k as f64;
        let title = format!(
            "{} {words}, {} to {}",
            self.tracks.tasks[k],
            time(lines[from].clock),
            time(lines.get(to).unwrap_or(&lines[to - 1]).clock)
        );
        let at = (self.columns[from], y + 2.0);
        let size = (self.columns[to] - self.columns[from], ROW - 4.0);
        let fill = if look == Look::Dormant {
            "class=\"edge\"".to_string()
        } else {
            format!("class=\"block\" fill=\"{colour}\"")
        };
        self.svg.rect(at, size, &fill, &title);
        let (a, b) = self.room(k, from, to);
        if b - a >= 9.0 {
            let ink = format!("class=\"letter\" style=\"fill:{ink}\"");
            self.svg.words((a + b) / 2.0, y + ROW / 2.0 + 3.0, &ink, letter);
        }
    }

    /// The widest part of a block that has no dot.
    fn room(&self, k: usize, from: usize, to: usize) -> (f64, f64) {
        let mut begin = self.columns[from];
        let mut best = (begin, begin);
        for i in from..=to {
            if i == to || self.is_call_of(k, i) {
                let end = self.columns[i];
                if end - begin > best.1 - best.0 {
                    best = (begin, end);
                }
                begin = self.columns[(i + 1).min(to)];
            }
        }
        best
    }

    /// A row for each flag, with a bar while it is set; and one for the requests, with their number.
    fn rows_below(&mut self) {
        for (row, n) in self.flags.clone().into_iter().enumerate() {
            let name = self.tracks.flag(n);
            let set = |line: &Line| u8::from(line.flags.contains(&n));
            self.bars(row, &name, set, "");
        }
        if self.requests {
            self.bars(self.flags.len(), REQUESTS, |line| line.queued, "class=\"letter count\"");
        }
    }

    /// A row of bars while a number is not 0; with `ink` the number stands in them, where there is room.
    fn bars(&mut self, row: usize, name: &str, number: impl Fn(&Line) -> u8, ink: &str) {
        let y = self.flags_top() + FLAG * row as f64;
        self.svg.words(MARGIN, y + FLAG - 3.5, "class=\"small\"", name);
        let lines = &self.tracks.lines;
        let mut i = 0;
        while i < lines.len() {
            let now = number(&lines[i]);
            let long = lines[i..].iter().take_while(|line| number(line) == now).count();
            let size = (self.columns[i + long] - self.columns[i], FLAG - 4.0);
            if now > 0 {
                self.svg.rect((self.columns[i], y + 2.0), size, "class=\"flag\"", name);
            }
            if now > 0 && !ink.is_empty() && size.0 >= width(&now.to_string(), 9.0) + 1.0 {
                self.svg.words(self.columns[i] + size.0 / 2.0, y + FLAG - 4.0, ink, &now.to_string());
            }
            i += long;
        }
    }

    /// The names of the calls, below; and where they end.
    fn calls(&mut self) -> f64 {
        let y = self.bottom() + 6.0;
        let mut longest = 0.0;
        for i in 0..self.tracks.lines.len() {
            let line = &self.tracks.lines[i];
            if line.is_tick() {
                continue;
            }
            let mut name = short(&line.record);
            let look = if line.number == 0 { "class=\"small\"" } else { "class=\"small bad\"" };
            if line.number != 0 {
                name += &format!(": {}", line.number);
            }
            longest = f64::max(longest, width(&name, 9.0));
            self.svg.upright(self.middle(i) + 3.2, y, look, &name);
        }
        y + longest
    }

    /// What the colours and dots mean, in as many rows as it takes; and where it ends.
    fn legend(&mut self, below: f64, whole: f64) -> f64 {
        let (mut x, mut y) = (MARGIN, below + 12.0);
        for (look, words, letter, colour, ink) in LOOKS {
            if !self.tracks.lines.iter().any(|line| line.looks.contains(&look)) {
                continue;
            }
            let long = 19.0 + width(words, 9.0) + 7.0;
            if x + long > whole - MARGIN {
                (x, y) = (MARGIN, y + 18.0);
            }
            let fill = if look == Look::Dormant {
                "class=\"edge\"".to_string()
            } else {
                format!("class=\"block\" fill=\"{colour}\"")
            };
            self.svg.rect((x, y - 10.0), (14.0, 13.0), &fill, "");
            self.svg.words(x + 7.0, y, &format!("class=\"letter\" style=\"fill:{ink}\""), letter);
            self.svg.words(x + 19.0, y, "class=\"small\"", words);
            x += long;
        }
        let refused = self.tracks.lines.iter().any(|line| line.number != 0 && !line.is_tick());
        let called = self.tracks.lines.iter().any(|line| line.number == 0 && !line.is_tick());
        let dots = [(called, "class=\"dot\"", "a call"), (refused, REFUSED, "a refused call, with its number")];
        for (_, look, words) in dots.into_iter().filter(|(met, ..)| *met) {
            let long = 13.0 + width(words, 9.0) + 7.0;
            if x + long > whole {
                (x, y) = (MARGIN, y + 18.0);
            }
            self.svg.dot(x + 5.0, y - 3.5, look);
            self.svg.words(x + 13.0, y, "class=\"small\"", words);
            x += long;
        }
        y + 12.0
    }
}

/// The times above: at the ticks, and as often as their words fit side by side.
fn labels(lines: &[Line], columns: &[f64]) -> Vec<(f64, String)> {
    let units = [1, 10, 20, 50, 100, 200, 250, 500, 1000, 2000, 5000, 10_000, 30_000, 60_000, 600_000, 3_600_000];
    let end = columns.last().unwrap_or(&0.0) + MARGIN;
    let at = |unit: u64| {
        let ticks = lines.iter().enumerate().filter(move |(_, line)| line.is_tick() && line.clock % unit == 0);
        let labels = ticks.map(|(i, line)| ((columns[i] + columns[i + 1]) / 2.0, time(line.clock)));
        labels.filter(|(x, label)| x + width(label, 5.0) < end).collect::<Vec<_>>()
    };
    let fits = |list: &Vec<(f64, String)>| {
        list.windows(2).all(|pair| pair[1].0 - pair[0].0 > width(&pair[0].1, 5.0) + width(&pair[1].1, 5.0) + 3.0)
    };
    units.into_iter().map(at).find(fits).unwrap_or_default()
}

/// A call's name, short, for a picture.
fn short(record: &[u8]) -> String {
    match record[0] {
        0x00 => "end".to_string(),
        0x01 => "restart".to_string(),
        0x02 => "pause".to_string(),
        0x03 => "cancel".to_string(),
        0x04 => "start".to_string(),
        0x05 => "queue".to_string(),
        0x06 => "enter".to_string(),
        0x07 => "leave".to_string(),
        0x09 => ["reset", "set", "test"].get(usize::from(record[1])).unwrap_or(&"flag").to_string(),
        0x0A => "wait".to_string(),
        0x0B => "alarm".to_string(),
        0x14 => "send".to_string(),
        0x15 => "receive".to_string(),
        0x80 => "tick".to_string(),
        kind => format!("{kind:02X}"),
    }
}
