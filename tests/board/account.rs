//! The book of starts and the account of messages held to the model alone, as it is or with a fault: what they find by
//! themselves.

use crate::answer::answer_bytes;
use crate::book::{Book, Held};
use crate::letters::Letters;
use crate::wrong::Wrong;
use model::configuration::fresh_from_start;
use model::image::encode;
use model::records::records_of;
use model::runs::run;
use model::steps::step;

/// Takes the steps of a generated run, and adds how many they were.
fn walk(bytes: &[u8], wrong: Wrong, steps: &mut u64) -> Held {
    let (mut table, used) = match fresh_from_start(bytes) {
        Some(made) => made,
        None => return Ok(()),
    };
    let mut image = encode(&table);
    let mut book = Book::open(&image);
    let mut letters = Letters::open(&image);
    for record in records_of(&bytes[used..]) {
        let answer = match wrong {
            Wrong::Rule(fault) => fault.step(&mut table, record),
            _ => step(&mut table, record),
        };
        let after = encode(&table);
        book.enter(&image, record, &answer_bytes(&answer), &after)?;
        letters.enter(&image, record, &answer_bytes(&answer), &after)?;
        image = after;
        *steps += 1;
    }
    Ok(())
}

/// Until so many steps are taken: true if the account holds after each.
pub fn accounted(least: u64, seed: u64, wrong: Wrong) -> bool {
    let (mut steps, mut index) = (0, 0);
    while steps < least {
        if let Err(why) = walk(&run(seed, index), wrong, &mut steps) {
            println!("run {index} of seed {seed}: {why}");
            return false;
        }
        index += 1;
    }
    println!("{index} runs of seed {seed}: no start and no message is lost in {steps} steps");
    true
}
