//! The instructions of a step on a machine that counts them, by kind.

use std::collections::BTreeMap;

/// Of some steps: how many, the instructions of all, and of the step with the fewest and the most.
#[derive(Clone, Copy)]
struct Sum {
    steps: u64,
    all: u64,
    least: u32,
    most: u32,
}

/// By what a step was: its kind where it was accepted, or "refused".
#[derive(Default)]
pub struct Counts(BTreeMap<String, Sum>);

impl Counts {
    pub fn add(&mut self, record: &[u8], number: u8, instructions: u32) {
        let what = match (number, record.first()) {
            (0, Some(kind)) => format!("{kind:02X}"),
            _ => "refused".to_string(),
        };
        for key in [String::new(), what] {
            let sum = self.0.entry(key).or_insert(Sum { steps: 0, all: 0, least: u32::MAX, most: 0 });
            sum.steps += 1;
            sum.all += u64::from(instructions);
            sum.least = sum.least.min(instructions);
            sum.most = sum.most.max(instructions);
        }
    }

    /// Prints a row of a table for each; the first is of all steps. False where nothing was counted.
    pub fn print(&self, name: &str) -> bool {
        for (what, sum) in &self.0 {
            let what = if what.is_empty() { "all" } else { what };
            let mean = (sum.all + sum.steps / 2) / sum.steps;
            println!("| {name} | {what} | {} | {mean} | {} | {} |", sum.steps, sum.least, sum.most);
        }
        self.0.get("").map_or(false, |sum| sum.least > 0)
    }
}
