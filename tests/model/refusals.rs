//! The refusals of documents 01 and 02, in their order.

use crate::records::body_length;
use crate::table::{State, Table, LAST_CLOCK, MESSAGES, PLACES, SUBS};

/// The refusal's number, the first in the order, or 0; the caller is the active task, 0 for nobody.
pub fn refusal(table: &Table, caller: u8, record: &[u8]) -> u8 {
    let (kind, body) = match record {
        [kind, body @ ..] => (*kind, body),
        [] => return 3,
    };
    match body_length(kind) {
        None => return 4,
        Some(length) if body.len() != length => return 3,
        Some(_) => {}
    }
    if kind == 0x80 {
        let past = table.clock + u64::from(table.granule) > LAST_CLOCK;
        return if past { 10 } else { 0 };
    }
    if caller == 0 {
        return 5;
    }
    if out_of_range(table, kind, body) {
        return 6;
    }
    match kind {
        0x06 if table.subs[body[0] as usize].holder == caller => 13,
        0x07 if table.subs[body[0] as usize].holder != caller => 14,
        0x00 | 0x01 if table.holds_any(caller) => 15,
        0x05 => refusal_of_start(table, caller, body[0], body[1]),
        0x0B if table.alarms[body[2] as usize] != 0 => 9,
        0x14 if !table.awaits(body[0], caller) && table.sent as usize == MESSAGES => 16,
        _ => 0,
    }
}

/// Number 7 or 8 for a 05 whose bytes are in range.
fn refusal_of_start(table: &Table, caller: u8, option: u8, target: u8) -> u8 {
    if target == caller && option & 0x60 != 0 {
        7
    } else if table.task(target).state != State::Dormant && table.asked as usize == PLACES {
        8
    } else {
        0
    }
}

/// Number 6: some byte of the body is out of its range.
fn out_of_range(table: &Table, kind: u8, body: &[u8]) -> bool {
    let no_task = |task: u8| task == 0 || task > table.count;
    match kind {
        0x01 => body[0] & 0xC0 == 0xC0,
        0x02 => body[0] > 5,
        0x03 => no_task(body[0]),
        0x04 => body[0] & 0x70 != 0 || no_task(body[1]),
        0x05 => body[0] & 0x60 == 0x60 || no_task(body[1]),
        0x06 | 0x07 => body[0] as usize >= SUBS,
        0x09 => body[0] > 2 || body[1] > 31,
        0x0A => body[0] > 1 || body[1..] == [0; 4],
        0x0B => body[0] > 5 || body[2] > 31,
        0x14 => no_task(body[0]),
        0x15 => body[0] > table.count,
        _ => false,
    }
}
