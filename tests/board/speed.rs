//! The time of one step through the board library, against the same step of the second program.

use crate::answer::{answer_bytes, ANSWER};
use crate::library::Library;
use crate::short::short_mixes;
use model::configuration::fresh_from_start;
use model::image::{decode, encode};
use model::mixes::{median, mixes};
use model::records::records_of;
use model::steps::step;
use model::table::Table;
use std::time::Instant;

/// The ways to take a mix's steps: from the first table through all records, to the last image.
type Way = fn(&mut Library, &Table, &[&[u8]]) -> Vec<u8>;
const WAYS: [(&str, Way); 3] = [("board library", by_library), ("second", by_table), ("second, by image", by_image)];

/// Prints times and ratios for the three mixes; false where the last images differ.
pub fn speed(library: &mut Library, rounds: usize) -> bool {
    println!("one step through the board library: load, check, step, store");
    for (name, input) in mixes() {
        let (table, used) = fresh_from_start(&input).expect("a mix has a configuration");
        let records = records_of(&input[used..]);
        let images = WAYS.map(|(_, way)| way(library, &table, &records));
        if images.iter().any(|image| *image != images[0]) {
            println!("{name}: the images differ");
            return false;
        }
        let mut times = WAYS.map(|_| Vec::new());
        for _ in 0..rounds {
            for ((_, way), times) in WAYS.iter().zip(&mut times) {
                let begun = Instant::now();
                looked_at(way(library, &table, &records));
                times.push(begun.elapsed().as_secs_f64() / records.len() as f64);
            }
        }
        print_mix(name, records.len(), &times);
    }
    println!("ratios: medians of {rounds} interleaved rounds (least to most)");
    true
}

/// So many passes through a short mix in one way, for whoever counts the instructions of the whole; prints the steps
/// of a pass. `None` where there is no such way or mix.
pub fn passes(library: &mut Library, way: &str, mix: &str, passes: u32) -> Option<bool> {
    let (_, way) = WAYS.iter().find(|(name, _)| *name == way)?;
    let mixes = short_mixes();
    let (_, input) = mixes.iter().find(|(name, _)| *name == mix)?;
    let (table, used) = fresh_from_start(input)?;
    let records = records_of(&input[used..]);
    for _ in 0..passes {
        looked_at(way(library, &table, &records));
    }
    println!("{}", records.len());
    Some(true)
}

/// Takes a value for looked at, so that no compiler leaves out what it was made by.
fn looked_at<T>(value: T) {
    // SAFETY: the value is there to be read, and its copy is not dropped.
    std::mem::forget(unsafe { std::ptr::read_volatile(&value) });
}

fn by_library(library: &mut Library, table: &Table, records: &[&[u8]]) -> Vec<u8> {
    let mut image = encode(table);
    let mut answer = [0; ANSWER];
    for record in records {
        library.step_in_place(&mut image, record, &mut answer);
        looked_at(answer);
    }
    image
}

/// The second program on its own table, which it checks at each step.
fn by_table(_: &mut Library, table: &Table, records: &[&[u8]]) -> Vec<u8> {
    let mut table = *table;
    for record in records {
        looked_at(answer_bytes(&step(&mut table, record)));
    }
    encode(&table)
}

/// The second program, decoding and encoding the image at each step.
fn by_image(_: &mut Library, table: &Table, records: &[&[u8]]) -> Vec<u8> {
    let mut image = encode(table);
    for record in records {
        let mut table = decode(&image).expect("an encoded table is an image");
        looked_at(answer_bytes(&step(&mut table, record)));
        image = encode(&table);
    }
    image
}

fn print_mix(name: &str, steps: usize, times: &[Vec<f64>; 3]) {
    println!("{name}: {steps} steps");
    for ((who, _), own) in WAYS.iter().zip(times) {
        let microseconds = median(own.clone()) * 1e6;
        println!("  {who:<17} {microseconds:>8.3} microseconds a step");
    }
    for ((who, _), other) in WAYS.iter().zip(times).skip(1) {
        let mut ratios: Vec<f64> = times[0].iter().zip(other).map(|(a, b)| a / b).collect();
        ratios.sort_by(f64::total_cmp);
        let (least, most) = (ratios[0], ratios[ratios.len() - 1]);
        let middle = median(ratios);
        println!("  ratio to {who:<17} {middle:>8.2} ({least:.2} to {most:.2})");
    }
}
