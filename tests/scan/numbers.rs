//! Arrival numbers for tables that runs come to: near their end, and with a rule of theirs broken.

use model::image;
use model::runs::Rng;
use model::scan::{Scanned, LAST_ARRIVAL, LENGTH};
use model::table::{State, TASKS};

/// From where walks go on: the last number that can be given was, or one or sixteen are left.
pub const LASTS: [u32; 3] = [LAST_ARRIVAL, LAST_ARRIVAL - 1, LAST_ARRIVAL - 16];

/// The table with this last number, and the ready tasks in their order: with the numbers they bear, with the last ones,
/// or with any.
pub fn raised(table: &Scanned, last: u32, rng: &mut Rng) -> Scanned {
    let mut next = Scanned { last, ..*table };
    let mut order: Vec<usize> = (0..TASKS).filter(|place| table.arrivals[*place] != 0).collect();
    order.sort_by_key(|place| table.arrivals[*place]);
    match rng.below(3) {
        0 => {}
        1 => {
            for (place, behind) in order.iter().rev().zip(0..) {
                next.arrivals[*place] = last - behind;
            }
        }
        _ => {
            let most = last as usize / TASKS;
            let mut number = 0;
            for place in order {
                number += 1 + rng.below(most) as u32;
                next.arrivals[place] = number;
            }
        }
    }
    next
}

/// What is broken in a table's numbers, or stands where its image has no queue.
pub const BREAKS: [(&str, Break); 7] = [
    ("two equal numbers", two_equal),
    ("a ready task with 0", ready_with_0),
    ("a number above the last", above_the_last),
    ("a number at a task that is not ready", at_another),
    ("a queue", |image, rng| filled(image, 416 + rng.below(TASKS), rng)),
    ("a count of ready tasks", |image, rng| filled(image, 432, rng)),
    ("a word of levels", |image, rng| filled(image, 896 + rng.below(2), rng)),
];

/// Breaks an image; false where it cannot.
pub type Break = fn(&mut Vec<u8>, &mut Rng) -> bool;

/// Where the number of an entry stands; after the last entry's, the last number given.
fn place_of(entry: usize) -> usize {
    image::LENGTH + 4 * entry
}

fn put(image: &mut [u8], entry: usize, number: u32) {
    image[place_of(entry)..place_of(entry) + 4].copy_from_slice(&number.to_be_bytes());
}

/// The entries that are ready, or are not, of a table that an image holds.
fn entries(image: &[u8], ready: bool) -> (Scanned, Vec<usize>) {
    let table = Scanned::decode(image).expect("the walk's image is one");
    let such = (0..TASKS).filter(|entry| (table.table.tasks[*entry].state == State::Ready) == ready).collect();
    (table, such)
}

fn two_equal(image: &mut Vec<u8>, rng: &mut Rng) -> bool {
    let (table, ready) = entries(image, true);
    if ready.len() < 2 {
        return false;
    }
    let first = rng.below(ready.len() - 1);
    let second = first + 1 + rng.below(ready.len() - 1 - first);
    put(image, ready[second], table.arrivals[ready[first]]);
    true
}

fn ready_with_0(image: &mut Vec<u8>, rng: &mut Rng) -> bool {
    let (_, ready) = entries(image, true);
    if !ready.is_empty() {
        put(image, rng.pick(&ready), 0);
    }
    !ready.is_empty()
}

/// One over the last number, or the last number under the largest.
fn above_the_last(image: &mut Vec<u8>, rng: &mut Rng) -> bool {
    let (table, ready) = entries(image, true);
    let most = table.arrivals.iter().max().copied().unwrap_or(0);
    if ready.is_empty() || table.last == LAST_ARRIVAL && rng.one_in(2) {
        return false;
    }
    if table.last == LAST_ARRIVAL || rng.one_in(2) {
        put(image, TASKS, most - 1);
    } else {
        put(image, rng.pick(&ready), table.last + 1);
    }
    true
}

fn at_another(image: &mut Vec<u8>, rng: &mut Rng) -> bool {
    let (table, others) = entries(image, false);
    if !others.is_empty() {
        put(image, rng.pick(&others), rng.pick(&[1, table.last, LAST_ARRIVAL]).max(1));
    }
    !others.is_empty()
}

fn filled(image: &mut Vec<u8>, at: usize, rng: &mut Rng) -> bool {
    image[at] = rng.pick(&[1, 2, 16, 128, 255]);
    image.len() == LENGTH
}
