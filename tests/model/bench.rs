//! The bench program of document 01: input bytes to output bytes.

use crate::configuration::fresh_from_start;
use crate::records::cut;
use crate::table::{Answer, Table};

pub const LONGEST_INPUT: usize = 65_536;

/// What the bench prints for an input, with the steps taken as given.
pub fn listing(input: &[u8], step: impl Fn(&mut Table, &[u8]) -> Answer) -> Vec<u8> {
    if input.len() > LONGEST_INPUT {
        return b"stop 12\n".to_vec();
    }
    match fresh_from_start(input) {
        Some((table, used)) => listing_from(table, &input[used..], step),
        None => b"stop 2\n".to_vec(),
    }
}

/// The same from any table on.
pub fn listing_from(mut table: Table, mut rest: &[u8], step: impl Fn(&mut Table, &[u8]) -> Answer) -> Vec<u8> {
    let mut out = Vec::with_capacity(64 + 16 * rest.len());
    header(&mut out, table.granule, table.count, table.queue[0]);
    let mut number = 0;
    while !rest.is_empty() {
        let (record, more) = match cut(rest) {
            Ok(parts) => parts,
            Err(stop) => {
                out.extend_from_slice(b"stop ");
                decimal(&mut out, stop.into());
                out.push(b'\n');
                return out;
            }
        };
        number += 1;
        let answer = step(&mut table, record);
        line(&mut out, number, record[0], &answer);
        rest = more;
    }
    out.extend_from_slice(b"end\n");
    out
}

fn header(out: &mut Vec<u8>, granule: u8, tasks: u8, active: u8) {
    for (word, number) in [("granule ", granule), (" tasks ", tasks), (" active ", active)] {
        out.extend_from_slice(word.as_bytes());
        decimal(out, number.into());
    }
    out.push(b'\n');
}

fn line(out: &mut Vec<u8>, number: u32, kind: u8, answer: &Answer) {
    const DIGITS: &[u8; 16] = b"0123456789ABCDEF";
    decimal(out, number);
    out.extend_from_slice(&[b' ', DIGITS[kind as usize / 16], DIGITS[kind as usize % 16], b' ']);
    decimal(out, answer.number.into());
    let bit = |set: bool| b'0' + u8::from(set);
    out.extend_from_slice(&[b' ', bit(answer.z), bit(answer.v), bit(answer.c), b' ']);
    decimal(out, answer.active.into());
    out.push(b'\n');
}

fn decimal(out: &mut Vec<u8>, number: u32) {
    if number >= 10 {
        decimal(out, number / 10);
    }
    out.push(b'0' + (number % 10) as u8);
}
