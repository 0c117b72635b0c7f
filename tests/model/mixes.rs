//! What the two speed runs share: long inputs, and the median.

use crate::bench::LONGEST_INPUT;

/// The mixes, by name.
pub fn mixes() -> [(&'static str, Vec<u8>); 5] {
    [
        ("ticks only", ticks()),
        ("calls only", calls()),
        ("wake-ups of many", wake_ups()),
        ("restarts", restarts(0x00)),
        ("restarts that skip", restarts(0x40)),
    ]
}

pub fn median(mut values: Vec<f64>) -> f64 {
    values.sort_by(f64::total_cmp);
    let middle = values.len() / 2;
    if values.len() % 2 == 1 {
        values[middle]
    } else {
        (values[middle - 1] + values[middle]) / 2.0
    }
}

/// A granule of 10 ms, 16 tasks of own priority 7 all started, and a round as often as it fits.
fn repeated(begin: &[u8], round: &[u8]) -> Vec<u8> {
    let mut input = [&[0x40, 10][..], &[0x41, 7, 1].repeat(16), &[0x42], begin].concat();
    while input.len() + round.len() <= LONGEST_INPUT {
        input.extend_from_slice(round);
    }
    input
}

/// Half the tasks paused for hours, two alarms running, then ticks.
fn ticks() -> Vec<u8> {
    let begin = [&[0x02, 4, 200].repeat(8)[..], &[0x0B, 4, 9, 1, 0x0B, 4, 9, 2]].concat();
    repeated(&begin, &[0x80])
}

/// Calls that come round to where they began: task 1 alone ends, and is started again.
fn calls() -> Vec<u8> {
    let round: [&[u8]; 17] = [
        &[0x09, 1, 5],
        &[0x09, 2, 5],
        &[0x0A, 1, 0, 0, 0, 0x20],
        &[0x09, 0, 5],
        &[0x02, 0, 0],
        &[0x03, 9],
        &[0x04, 0x0F, 1],
        &[0x05, 0x0F, 1, 0, 7],
        &[0x05, 0x1F, 1, 0, 7],
        &[0x00],
        &[0x00],
        &[0x00],
        &[0x05, 0x4F, 1, 0, 1],
        &[0x01, 6, 0],
        &[0x00],
        &[0x01, 0x80, 0],
        &[0x0B, 0, 0, 5],
    ];
    repeated(&[0x00], &round.concat())
}

/// Fifteen tasks wait for flag 0, the last sets and resets it; then all pause, and a tick wakes them.
fn wake_ups() -> Vec<u8> {
    let waits = [0x0A, 0, 0, 0, 0, 1].repeat(15);
    let pauses = [0x02, 0, 9].repeat(16);
    repeated(&[], &[&waits[..], &[0x09, 1, 0, 0x09, 0, 0], &pauses, &[0x80]].concat())
}

/// Every task restarts a granule after its last start, and a tick wakes them all.
fn restarts(parameter: u8) -> Vec<u8> {
    let round = [&[0x01, parameter, 10].repeat(16)[..], &[0x80]].concat();
    repeated(&[], &round)
}
