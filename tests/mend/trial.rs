//! The mender of the board library against the second program's own: number, list and every byte of the image, on
//! tables that runs walk to, damaged, broken rule by rule, and of random bytes.

#[path = "../board/guarded.rs"]
mod guarded;
mod kept;
mod library;
mod met;
// no instructions are counted here
#[allow(dead_code)]
#[path = "../board/piped.rs"]
mod piped;
mod program;
mod spoilt;
// bad records are for the trial of the steps
#[allow(dead_code)]
#[path = "../board/tables.rs"]
mod tables;

use library::Library;
use met::Met;
use model::check::well_formed;
use model::ending::ending;
use model::image::{block, decode, load, LENGTH};
use model::mend::{Fault, MendedImage, FAULTS};
use model::steps::step;
use model::table::TASKS;
use spoilt::{Given, Walk};
use std::io::Write;
use std::process::ExitCode;
use std::time::Instant;

const USAGE: &str = "usage: mend-trial [--tables N] [--seed S] [--fault NAME]
       mend-trial --part [--tables N] [--seed S]
       mend-trial --program PROGRAM [--tables N] [--seed S]
       mend-trial --image RUN TABLE [--seed S]";

/// The bytes of a list: how many notes, and of each of sixteen the task and the rule.
const LIST: usize = 1 + 2 * TASKS;
/// The board's own number: the list's buffer is too short.
const NO_ROOM: u32 = 30;
/// What stands in the list's buffer before.
const UNWRITTEN: [u8; LIST + 4] = [0xA5; LIST + 4];
/// How many steps are taken from a mended table.
const STEPS: usize = 50;

/// A difference in words.
type Told = Result<(), String>;

struct Trial {
    library: Library,
    fault: Fault,
    met: Met,
}

impl Trial {
    /// One table: both menders give the same, and it is what a mended table must be.
    fn table(&mut self, given: &Given) -> Told {
        let image = &given.image;
        let mended = self.fault.mend_image(image);
        let list = &UNWRITTEN[..given.room];
        let expected = match list.get(..LIST) {
            Some(_) => (mended.number.into(), mended.image.clone(), list_bytes(&mended, list)),
            None => (NO_ROOM, image.clone(), list.to_vec()),
        };
        let (number, after, written) = self.library.mend(image, list);
        if (number, &after, &written) != (expected.0, &expected.1, &expected.2) {
            return Err(difference(image, &(number, after, written), &expected));
        }
        self.met.number(number);
        if number != 0 {
            return Ok(());
        }
        listed_right(image, &mended)?;
        if let (Some(before), Some(table)) = (load(image), load(&after)) {
            kept::kept(&before, &table, &mended).map_err(|what| format!("{what}\nimage {}", hex(image)))?;
        }
        self.goes_on(given, &mended.image)?;
        self.met.mended(image, &mended);
        Ok(())
    }

    /// A mended image is that of a well-formed table, mending it again changes nothing, and its steps go on.
    fn goes_on(&mut self, given: &Given, image: &[u8]) -> Told {
        let mut table = decode(image).ok_or("what was mended is no image")?;
        if !well_formed(&table) {
            return Err(format!("what was mended is not well formed\nimage {}", hex(image)));
        }
        let mut nothing = UNWRITTEN.to_vec();
        nothing[..LIST].fill(0);
        if self.library.mend(image, &UNWRITTEN) != (0, image.to_vec(), nothing) {
            return Err(format!("what was mended is mended again\nimage {}", hex(image)));
        }
        for record in given.records.iter().cycle().take(STEPS) {
            let number = step(&mut table, record).number;
            if number == 1 {
                return Err(format!("a step from what was mended gives 1\nimage {}", hex(image)));
            }
            self.met.stepped(number);
        }
        Ok(())
    }

    /// So many tables of a seed: whether everything was met; `None` where something differs.
    fn tables(&mut self, tables: u64, seed: u64) -> Option<bool> {
        let begun = Instant::now();
        let (mut run, mut all) = (0, 0);
        while all < tables {
            for (place, given) in Walk::new(seed, run).enumerate() {
                if let Err(difference) = self.table(&given) {
                    println!("table {place} of run {run} of seed {seed}: {difference}");
                    return None;
                }
                all += 1;
            }
            run += 1;
        }
        let complete = self.met.print();
        println!("{all} tables of {run} runs of seed {seed} agree, {:.1} s", begun.elapsed().as_secs_f64());
        Some(complete)
    }
}

/// The bytes of the list's buffer: how many notes, then each, zeros after them; what is behind keeps its content. After
/// a refusal all of it does.
fn list_bytes(mended: &MendedImage, before: &[u8]) -> Vec<u8> {
    let mut bytes = before.to_vec();
    if mended.number == 0 {
        bytes[..LIST].fill(0);
        bytes[0] = mended.list.len() as u8;
        for ((task, rule), place) in mended.list.iter().zip(bytes[1..].chunks_mut(2)) {
            place.copy_from_slice(&[*task, *rule]);
        }
    }
    bytes
}

/// An entry whose bytes differ is listed once, in the order of the numbers, and no other.
fn listed_right(image: &[u8], mended: &MendedImage) -> Told {
    let differs = |number: &u8| block(image, *number) != block(&mended.image, *number);
    let differing: Vec<u8> = (1..=TASKS as u8).filter(differs).collect();
    let listed: Vec<u8> = mended.list.iter().map(|(number, _)| *number).collect();
    if listed != differing {
        return Err(format!("the entries {differing:?} differ, and listed are {listed:?}\nimage {}", hex(image)));
    }
    Ok(())
}

fn hex(bytes: &[u8]) -> String {
    bytes.iter().map(|byte| format!("{byte:02X}")).collect()
}

/// What mending gave and was to give, in words: numbers, lists, and the bytes of the images that differ.
fn difference(image: &[u8], given: &library::Given, expected: &library::Given) -> String {
    let both = given.1.iter().zip(&expected.1).enumerate().filter(|(_, (one, other))| one != other);
    let bytes: Vec<String> =
        both.map(|(at, (one, other))| format!("byte {at} of the image: {one:02X}, {other:02X}\n")).collect();
    format!(
        "the menders differ\nimage {}\nlibrary: {}, list {}\nmodel:   {}, list {}\n{}",
        hex(image),
        given.0,
        hex(&given.2),
        expected.0,
        hex(&expected.2),
        bytes.concat()
    )
}

/// `--tables N`, `--seed S` and `--fault NAME`, in any order.
fn options_of(mut words: &[&str], tables: u64) -> Option<(u64, u64, Fault)> {
    let (mut tables, mut seed, mut fault) = (tables, 1, Fault::None);
    while let [name, value, rest @ ..] = words {
        match *name {
            "--tables" => tables = value.parse().ok()?,
            "--seed" => seed = value.parse().ok()?,
            "--fault" => fault = FAULTS.iter().find(|(known, _)| known == value)?.1,
            _ => return None,
        }
        words = rest;
    }
    words.is_empty().then_some((tables, seed, fault))
}

/// A given image's bytes, to look at one.
fn print_image(run: &str, table: &str, options: &[&str]) -> Option<bool> {
    let (run, table) = (run.parse().ok()?, table.parse().ok()?);
    let (_, seed, _) = options_of(options, 0)?;
    let given = Walk::new(seed, run).nth(table)?;
    Some(given.image.len() == LENGTH && std::io::stdout().lock().write_all(&given.image).is_ok())
}

fn asked(words: &[&str]) -> Option<bool> {
    let trial = |fault| Library::open().map(|library| Trial { library, fault, met: Met::default() });
    let tried = |options: &[&str]| {
        options_of(options, 100_000)
            .map(|(tables, seed, fault)| trial(fault).map(|mut trial| trial.tables(tables, seed)))
    };
    let done = match words {
        ["--image", run, table, options @ ..] => return print_image(run, table, options),
        ["--program", program, options @ ..] => {
            options_of(options, 2_000).map(|(tables, seed, _)| program::held(program, tables, seed))
        }
        // a part of a trial, too short to meet everything
        ["--part", options @ ..] => tried(options).map(|done| done.map(|met| met.is_some())),
        options => tried(options).map(|done| done.map(|met| met == Some(true))),
    };
    done.map(|done| {
        done.unwrap_or_else(|why| {
            println!("mend-trial: {why}");
            false
        })
    })
}

fn main() -> ExitCode {
    let words: Vec<String> = std::env::args().skip(1).collect();
    let words: Vec<&str> = words.iter().map(String::as_str).collect();
    ending(asked(&words), USAGE)
}
