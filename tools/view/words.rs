//! How things are called: tasks, flags and subprograms by their names, times, lists.

/// The names that a file gives to tasks, flags and subprograms.
#[derive(Default)]
pub struct Names {
    tasks: Vec<(u8, String)>,
    flags: Vec<(u8, String)>,
    subs: Vec<(u8, String)>,
}

impl Names {
    /// From a line such as `1 humidity, 2 door, flag 0 door is closed, subprogram 4 sensor`; what has no number is passed
    /// over.
    pub fn new(line: &str) -> Names {
        let mut names = Names::default();
        for part in line.split(',').map(str::trim) {
            let (list, part) = match (part.strip_prefix("flag "), part.strip_prefix("subprogram ")) {
                (Some(rest), _) => (&mut names.flags, rest.trim()),
                (_, Some(rest)) => (&mut names.subs, rest.trim()),
                _ => (&mut names.tasks, part),
            };
            if let Some((number, name)) = part.split_once(' ') {
                if let Ok(number) = number.parse() {
                    list.push((number, name.trim().to_string()));
                }
            }
        }
        names
    }

    /// A task in a sentence: its name, or its number.
    pub fn task(&self, number: u8) -> String {
        self.of_task(number).map_or(format!("task {number}"), str::to_string)
    }

    pub fn of_task(&self, number: u8) -> Option<&str> {
        self.tasks.iter().find(|(known, _)| *known == number).map(|(_, name)| name.as_str())
    }

    /// Whom a message is awaited from: a task, or any, 0.
    pub fn sender(&self, number: u8) -> String {
        if number == 0 {
            "any task".to_string()
        } else {
            self.task(number)
        }
    }

    pub fn of_flag(&self, number: u8) -> Option<&str> {
        self.flags.iter().find(|(known, _)| *known == number).map(|(_, name)| name.as_str())
    }

    /// A flag in a sentence: its number, and its name where it has one.
    pub fn flag(&self, number: u8) -> String {
        self.of_flag(number).map_or(format!("flag {number}"), |name| format!("flag {number} ({name})"))
    }

    /// A subprogram in a sentence: its number, and its name where it has one.
    pub fn sub(&self, number: u8) -> String {
        self.of_sub(number).map_or(format!("subprogram {number}"), |name| format!("subprogram {number} ({name})"))
    }

    pub fn of_sub(&self, number: u8) -> Option<&str> {
        self.subs.iter().find(|(known, _)| *known == number).map(|(_, name)| name.as_str())
    }

    /// The flags of a mask: `flag 0`, or `flags 0, 3`.
    pub fn flags(&self, mask: u32) -> String {
        let set = flags_of(mask);
        match set.as_slice() {
            [one] => self.flag(*one),
            _ => format!("flags {}", listed(set.iter().map(u8::to_string))),
        }
    }
}

/// The numbers of the flags in a mask.
pub fn flags_of(mask: u32) -> Vec<u8> {
    (0..32).filter(|n| mask >> n & 1 == 1).collect()
}

/// Words with commas between them.
pub fn listed(words: impl Iterator<Item = String>) -> String {
    words.collect::<Vec<_>>().join(", ")
}

/// The text of a message: letters, with no more than zeros behind them, in quotes; else its bytes in hex.
pub fn text(text: u64) -> String {
    let bytes = text.to_be_bytes();
    let long = bytes.iter().rposition(|byte| *byte != 0).map_or(0, |last| last + 1);
    let letters = &bytes[..long];
    if !letters.is_empty() && letters.iter().all(|byte| (b' '..=b'~').contains(byte)) {
        return format!("'{}'", String::from_utf8_lossy(letters));
    }
    bytes.map(|byte| format!("{byte:02X}")).join(" ")
}

/// Milliseconds as a person says them: `15 ms`, `0.25 s`, `1 min 5 s`, `30 d`.
pub fn time(ms: u64) -> String {
    if (1..100).contains(&ms) {
        return format!("{ms} ms");
    }
    let parts = [(86_400_000, "d"), (3_600_000, "h"), (60_000, "min")];
    let mut rest = ms;
    let mut said = Vec::new();
    for (length, unit) in parts {
        if rest >= length {
            said.push(format!("{} {unit}", grouped(rest / length)));
            rest %= length;
        }
    }
    if rest > 0 || said.is_empty() {
        let seconds = format!("{}.{:03}", rest / 1000, rest % 1000);
        said.push(format!("{} s", seconds.trim_end_matches('0').trim_end_matches('.')));
    }
    said.join(" ")
}

/// A number with commas between its thousands.
pub fn grouped(number: u64) -> String {
    if number < 1000 {
        return number.to_string();
    }
    format!("{},{:03}", grouped(number / 1000), number % 1000)
}
