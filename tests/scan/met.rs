//! What a trial of the second engine met.

use crate::numbers::{BREAKS, LASTS};
use model::scan::{Scanned, Taken};
use std::collections::BTreeMap;

/// The numbers that must be met: by steps, and by the making of fresh tables.
const OF_STEPS: [u8; 15] = [0, 1, 3, 4, 5, 6, 7, 8, 9, 10, 13, 14, 15, 16, 30];
const OF_FRESH: [u8; 3] = [0, 2, 30];
const KINDS: [u8; 14] = [0x00, 0x01, 0x02, 0x03, 0x04, 0x05, 0x06, 0x07, 0x09, 0x0A, 0x0B, 0x14, 0x15, 0x80];
/// So many must have been ready at a renumbering: nobody, one, and all but the one that enters.
const READY: [usize; 3] = [0, 1, 15];
/// The most ready tasks that a step can pass over.
const FARTHEST: u8 = 120;

#[derive(Default)]
pub struct Met {
    steps: BTreeMap<u8, u64>,
    kinds: BTreeMap<u8, u64>,
    fresh: BTreeMap<u8, u64>,
    checks: BTreeMap<bool, u64>,
    pub breaks: [u64; BREAKS.len()],
    /// Answers of both engines that were compared, and tables.
    pub alike: u64,
    walked: u8,
    renumbered: BTreeMap<usize, u64>,
    /// Renumberings by a tick, with some that had entered by it before.
    amid: u64,
    /// Sound tables whose last number is larger than any in use.
    larger: u64,
    pub begun: [u64; LASTS.len()],
}

impl Met {
    pub fn steps(&self) -> u64 {
        self.steps.values().sum()
    }

    /// A step that was taken, from a table that is well formed or not, and the table after it.
    pub fn stepped(&mut self, record: &[u8], number: u8, taken: Option<&Taken>, after: Option<&Scanned>) {
        *self.steps.entry(number).or_default() += 1;
        if let (0, Some(kind)) = (number, record.first()) {
            *self.kinds.entry(*kind).or_default() += 1;
        }
        if let Some(taken) = taken {
            self.walked = self.walked.max(taken.answer.walked);
            if let Some(renumbered) = taken.renumbered {
                *self.renumbered.entry(renumbered.ready).or_default() += 1;
                self.amid += u64::from(record == [0x80] && renumbered.before > 0);
            }
        }
        if let (0, Some(after)) = (number, after) {
            let most = after.arrivals.iter().max().copied().unwrap_or(0);
            self.larger += u64::from(most > 0 && after.last > most);
        }
    }

    pub fn made(&mut self, number: u8) {
        *self.fresh.entry(number).or_default() += 1;
    }

    pub fn checked(&mut self, sound: bool) {
        *self.checks.entry(sound).or_default() += 1;
    }

    /// Prints it; whether nothing is missing that must be met.
    pub fn print(&self) -> bool {
        println!("steps by number:");
        self.steps.iter().for_each(|(number, count)| println!("  {number:2} {count:9}"));
        println!("accepted steps by kind:");
        self.kinds.iter().for_each(|(kind, count)| println!("  {kind:02X} {count:9}"));
        println!("fresh tables by number: {:?}; checks that are sound: {:?}", self.fresh, self.checks);
        println!("answers of both engines compared, and what their tables share: {}", self.alike);
        println!("most ready tasks passed over: {}", self.walked);
        println!("renumberings by how many were ready: {:?}", self.renumbered);
        println!("by a tick, with some that had entered before: {}", self.amid);
        println!("tables whose last number is larger than any in use: {}", self.larger);
        for ((name, _), count) in BREAKS.iter().zip(self.breaks) {
            println!("refused for {name}: {count}");
        }
        for (last, count) in LASTS.iter().zip(self.begun) {
            println!("walks that went on from last number {last}: {count}");
        }
        self.is_complete()
    }

    fn is_complete(&self) -> bool {
        let missing = OF_STEPS.iter().any(|number| !self.steps.contains_key(number))
            || KINDS.iter().any(|kind| !self.kinds.contains_key(kind))
            || OF_FRESH.iter().any(|number| !self.fresh.contains_key(number))
            || self.checks.len() < 2
            || READY.iter().any(|ready| !self.renumbered.contains_key(ready))
            || self.walked != FARTHEST
            || self.amid == 0
            || self.larger == 0
            || self.alike == 0
            || self.breaks.contains(&0)
            || self.begun.contains(&0);
        if missing {
            println!("something that must be met was not");
        }
        !missing
    }
}
