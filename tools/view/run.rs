//! A run: the bench's input taken by the board library, with the table after each step.

use crate::image::{read, Mail, Table};
use crate::library::Library;
use crate::places::{C, HANDED_SENDER, HANDED_TEXT, NUMBER, SKIPPED, V, Z};
use crate::records::{configuration, cut};

/// The longest input that the bench takes.
pub const LONGEST_INPUT: usize = 65_536;

/// A step: its record, its answer, and the table after it.
pub struct Step {
    pub record: Vec<u8>,
    pub number: u8,
    pub z: bool,
    pub v: bool,
    pub c: bool,
    pub skipped: u64,
    /// The message that it handed out.
    pub handed: Mail,
    pub image: Vec<u8>,
    pub table: Table,
}

/// A whole run; where it stopped, the stop's number and the bytes that were left.
pub struct Run {
    pub fresh: Vec<u8>,
    pub steps: Vec<Step>,
    pub stop: Option<(u8, Vec<u8>)>,
}

impl Run {
    /// The run of an input; a stop without a table is an error in words.
    pub fn of(input: &[u8], library: &mut Library) -> Result<Run, String> {
        if input.len() > LONGEST_INPUT {
            return Err("stop 12: the input is longer than 65,536 bytes.".to_string());
        }
        let (first, mut rest) = input.split_at(configuration(input));
        let fresh = library.fresh(first)?.map_err(|_| "stop 2: the configuration is wrong.".to_string())?;
        let mut image = fresh.clone();
        let mut run = Run { fresh, steps: Vec::new(), stop: None };
        while !rest.is_empty() {
            let (record, more) = match cut(rest) {
                Ok(parts) => parts,
                Err(stop) => {
                    run.stop = Some((stop, rest.to_vec()));
                    break;
                }
            };
            let answer = library.step(&mut image, record)?;
            run.steps.push(Step {
                record: record.to_vec(),
                number: NUMBER.byte(&answer),
                z: Z.byte(&answer) != 0,
                v: V.byte(&answer) != 0,
                c: C.byte(&answer) != 0,
                skipped: SKIPPED.number(&answer),
                handed: Mail { sender: HANDED_SENDER.byte(&answer), text: HANDED_TEXT.number(&answer) },
                image: image.clone(),
                table: read(&image),
            });
            rest = more;
        }
        Ok(run)
    }

    /// The steps, each with the table before it.
    pub fn steps(&self) -> Vec<(Table, &Step)> {
        let before = std::iter::once(read(&self.fresh)).chain(self.steps.iter().map(|step| step.table.clone()));
        before.zip(&self.steps).collect()
    }
}
