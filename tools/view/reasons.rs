//! Why a step was refused, in words.

use crate::calls::mask;
use crate::image::Table;
use crate::words::{listed, time, Names};

/// The reason of a refusal's number, from the table before the step.
pub fn reason(before: &Table, record: &[u8], number: u8, names: &Names) -> String {
    match number {
        1 => "the table is not well formed".to_string(),
        5 => "a call needs a caller".to_string(),
        6 => out_of_range(before.count, record),
        7 => "it would wait for itself".to_string(),
        8 => format!("{} is busy, and 32 requests are queued, as many as there may be", names.task(record[2])),
        9 => {
            let until = before.alarms.get(usize::from(record[3])).map_or(0, |at| *at);
            format!("the alarm of {} is running, until {}", names.flag(record[3]), time(until))
        }
        10 => "the clock would pass 2^40 ms, its end".to_string(),
        13 => format!("it holds {} already", names.sub(record[1])),
        14 => not_held(before, record[1], names),
        15 => {
            let held = (0..8).filter(|n| before.sub(*n).map_or(0, |sub| sub.holder) == before.active());
            format!("it holds {}", listed(held.map(|n| names.sub(n))))
        }
        16 => format!(
            "32 messages wait, as many as there may be, and {} does not wait for this one",
            names.task(record[1])
        ),
        other => format!("number {other}"),
    }
}

/// Number 6: what is out of its range, the first of it.
fn out_of_range(count: u8, record: &[u8]) -> String {
    let body = &record[1..];
    let found = match record[0] {
        0x01 => vec![(body[0] & 0xC0 == 0xC0, "bits 7 and 6 of the parameter, two bases, are both set".to_string())],
        0x02 => vec![unit(body[0])],
        0x03 => vec![task(count, body[0])],
        0x04 => vec![(body[0] & 0x70 != 0, "bits 6 to 4 of the option must be 0".to_string()), task(count, body[1])],
        0x05 => {
            vec![(body[0] & 0x60 == 0x60, "it cannot wait for both start and end".to_string()), task(count, body[1])]
        }
        0x06 | 0x07 => vec![(body[0] > 7, format!("there is no subprogram {}; there are 0 to 7", body[0]))],
        0x09 => vec![(body[0] > 2, format!("there is no operation {}", body[0])), flag(body[1])],
        0x0A => vec![
            (body[0] > 1, format!("there is no mode {}", body[0])),
            (mask(record) == 0, "the mask names no flag".to_string()),
        ],
        0x0B => vec![unit(body[0]), flag(body[2])],
        0x14 => vec![task(count, body[0])],
        0x15 => vec![(body[0] > count, format!("there is no task {}; there are 1 to {count}, and 0 for any", body[0]))],
        _ => Vec::new(),
    };
    found.into_iter().find(|(wrong, _)| *wrong).map_or("a number is out of its range".to_string(), |(_, why)| why)
}

/// Number 14: who holds the subprogram.
fn not_held(before: &Table, number: u8, names: &Names) -> String {
    match before.sub(number).map_or(0, |sub| sub.holder) {
        0 => format!("nobody holds {}", names.sub(number)),
        holder => format!("{} holds {}", names.task(holder), names.sub(number)),
    }
}

fn unit(number: u8) -> (bool, String) {
    (number > 5, format!("there is no unit {number}; there are 0 to 5"))
}

fn task(count: u8, number: u8) -> (bool, String) {
    (number == 0 || number > count, format!("there is no task {number}; there are 1 to {count}"))
}

fn flag(number: u8) -> (bool, String) {
    (number > 31, format!("there is no flag {number}; there are 0 to 31"))
}
