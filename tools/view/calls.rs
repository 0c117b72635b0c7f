//! Each call in words.

use crate::words::{text, time, Names};

/// The milliseconds of a unit, 0 to 5.
pub fn unit(number: u8) -> Option<u64> {
    [1, 10, 1_000, 60_000, 3_600_000, 86_400_000].get(usize::from(number)).copied()
}

/// An interval in words; a unit that is none too.
pub fn interval(number: u8, count: u8) -> String {
    match unit(number) {
        Some(length) => time(length * u64::from(count)),
        None => format!("{count} of unit {number}"),
    }
}

/// The mask of an 0A.
pub fn mask(record: &[u8]) -> u32 {
    record[2..6].iter().fold(0, |mask, byte| mask << 8 | u32::from(*byte))
}

/// The text of a 14, as a number.
fn sent_text(record: &[u8]) -> u64 {
    record[2..10].iter().fold(0, |text, byte| text << 8 | u64::from(*byte))
}

/// What a call asks for, in words that follow its caller's name. `start` is the caller's last scheduled start.
pub fn call(record: &[u8], start: u64, names: &Names) -> String {
    let body = &record[1..];
    match record[0] {
        0x00 => "ends its run".to_string(),
        0x01 => restart(body[0], body[1], start),
        0x02 => format!("pauses for {}", interval(body[0], body[1])),
        0x03 => format!("cancels the pause of {}", names.task(body[0])),
        0x04 => format!("starts {} at {}", names.task(body[1]), priority(body[0])),
        0x05 => request(body, names),
        0x06 => format!("enters {}", names.sub(body[0])),
        0x07 => format!("leaves {}", names.sub(body[0])),
        0x09 => format!("{} {}", operation(body[0]), names.flag(body[1])),
        0x0A => wait(body[0], mask(record), names),
        0x0B => format!("has {} set after {}", names.flag(body[2]), interval(body[0], body[1])),
        0x14 => format!("sends {} to {}", text(sent_text(record)), names.task(body[0])),
        0x15 => format!("receives from {}", names.sender(body[0])),
        kind => format!("calls {kind:02X}"),
    }
}

fn restart(parameter: u8, count: u8, start: u64) -> String {
    let every = interval(parameter & 7, count);
    match parameter & 0xC0 {
        0x00 => format!("ends its run, again {every} after its last scheduled start, {}", time(start)),
        0x40 => format!("ends its run, again on its grid of {every} from {}, missed starts skipped", time(start)),
        0x80 => format!("ends its run, again {every} from now"),
        _ => "ends its run, again by both bases".to_string(),
    }
}

fn priority(option: u8) -> String {
    if option & 0x80 != 0 {
        "its own priority".to_string()
    } else {
        format!("priority {}", option & 0x0F)
    }
}

fn request(body: &[u8], names: &Names) -> String {
    let argument = if body[0] & 0x10 != 0 { 0 } else { u16::from(body[2]) << 8 | u16::from(body[3]) };
    let waits = match body[0] & 0x60 {
        0x40 => ", and waits for its end",
        0x20 => ", and waits for its start",
        0x60 => ", and waits for both",
        _ => "",
    };
    format!("asks for a run of {} at {}, argument {argument}{waits}", names.task(body[1]), priority(body[0]))
}

fn operation(operation: u8) -> String {
    match operation {
        0 => "resets".to_string(),
        1 => "sets".to_string(),
        2 => "tests".to_string(),
        other => format!("does operation {other} on"),
    }
}

fn wait(mode: u8, mask: u32, names: &Names) -> String {
    let flags = names.flags(mask);
    match (mode, mask.count_ones()) {
        (_, 0) => "waits for no flag".to_string(),
        (0 | 1, 1) => format!("waits for {flags}"),
        (0, _) => format!("waits for any of {flags}"),
        (1, _) => format!("waits for all of {flags}"),
        (other, _) => format!("waits in mode {other} for {flags}"),
    }
}
