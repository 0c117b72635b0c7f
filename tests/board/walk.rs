//! The walks through generated runs, by the board library and by the model, step beside step.

use crate::answer::{answer_bytes, ANSWER};
use crate::book::Book;
use crate::counts::Counts;
use crate::letters::Letters;
use crate::library::Library;
use crate::met::{Met, Since};
use crate::reasons;
use crate::tables;
use crate::wrong::Wrong;
use model::check::well_formed;
use model::configuration::{fresh, fresh_from_start};
use model::image::{decode, encode, LENGTH};
use model::records::records_of;
use model::runs::{run, Rng};
use model::steps::step;
use model::table::{Answer, Table, TASKS, UNITS};
use std::time::Instant;

/// The most steps that are taken of one generated run.
const LONGEST_WALK: usize = 400;
/// The board's own number: a buffer that is to be written to has not the length it needs.
const NO_ROOM: u32 = 30;
/// Where the word of the ready levels stands in an image.
const WORD: usize = 896;
/// Where the messages begin.
const MAIL: usize = 1_058;
/// What the lamp gives where it shows nothing.
const DARK: u32 = 16;
/// What stands in the answer's buffer before a step.
pub const UNWRITTEN: [u8; ANSWER + 4] = [0xA5; ANSWER + 4];

/// What a step gives: the number returned, and the bytes of image and answer after it.
type Given = (u32, Vec<u8>, Vec<u8>);

pub struct Trial<'a> {
    library: &'a mut Library,
    seed: u64,
    wrong: Wrong,
    met: Met,
    pub counts: Counts,
}

/// A difference in words, with its image and record in hex.
type Told = Result<(), String>;

impl Trial<'_> {
    pub fn new(library: &mut Library, seed: u64, wrong: Wrong) -> Trial<'_> {
        Trial { library, seed, wrong, met: Met::default(), counts: Counts::default() }
    }

    /// A pause of every count of every unit, once, from a table with one task.
    fn intervals(&mut self) -> Told {
        let table = fresh(&[0x40, 1, 0x41, 0, 1, 0x42]).expect("a good configuration");
        let image = encode(&table);
        for unit in 0..UNITS.len() as u8 {
            for count in 0..=255 {
                self.step(&image, &[0x02, unit, count], &UNWRITTEN)?;
            }
        }
        println!("a pause of each of {} intervals agrees", UNITS.len() * 256);
        Ok(())
    }

    /// The image that a board wrote before unit 5 was a day, and before there were the word of the ready levels,
    /// subprograms and messages, is refused; with the word and zeros behind it (docs/EMBEDDING.md) it is well formed,
    /// and its steps go on.
    fn before_days(&mut self) -> Told {
        let text = include_str!("before-days.hex").lines();
        let bytes = text
            .filter(|line| !line.starts_with('#'))
            .flat_map(|line| line.split(' ').map(|byte| u8::from_str_radix(byte, 16).expect("a byte in hex")));
        let image: Vec<u8> = bytes.collect();
        let (older, later) = image.split_at(WORD);
        let (word, newer) = later.split_at(2);
        if [WORD, WORD + 2, MAIL].iter().any(|length| self.library.check(&image[..*length]) != 1) {
            return Err("an image without the word of the ready levels, subprograms or messages is taken".to_string());
        }
        let zeros = newer.iter().all(|byte| *byte == 0);
        if word != levels_of(older).to_be_bytes() || !zeros || self.library.check(&image) != 0 {
            return Err("the image of an older board, with its word and zeros, is refused".to_string());
        }
        self.image(&image, &[0x80])?;
        self.image(&image, &[0x00])?;
        println!("the image of an older board is well formed");
        Ok(())
    }

    /// Sixteen tasks of one priority pause, and a tick wakes them all: nothing makes those that enter walk farther.
    fn equals(&mut self) -> Told {
        let tasks = [[0x41, 7, 1]; TASKS].concat();
        let table = fresh(&[&[0x40, 1], tasks.as_slice(), &[0x42]].concat()).expect("a good configuration");
        let mut image = encode(&table);
        for _ in 0..TASKS {
            image = self.step(&image, &[0x02, 0, 1], &UNWRITTEN)?;
        }
        self.step(&image, &[0x80], &UNWRITTEN)?;
        println!("the walk of sixteen equals agrees");
        Ok(())
    }

    /// Walks through one generated run, with edits, damage and bad records on the way.
    fn walk(&mut self, index: u64) -> Told {
        let rng = &mut Rng::new(!self.seed, index);
        // of their own, so that the walk is the same with questions or without
        let whys = &mut Rng::new(self.seed ^ 1 << 32, index);
        let bytes = run(self.seed, index);
        let used = fresh_from_start(&bytes).map_or(bytes.len(), |(_, used)| used);
        self.fresh(&bytes[..used], rng)?;
        self.fresh(&bytes, rng)?;
        let mut image = match fresh(&bytes[..used]) {
            Some(table) => encode(&table),
            None => return Ok(()),
        };
        let edits = rng.pick(&[6, 20, 60, 1000]);
        let mut since = Since::default();
        let mut book = Book::open(&image);
        let mut letters = Letters::open(&image);
        for record in records_of(&bytes[used..]).into_iter().take(LONGEST_WALK) {
            if rng.one_in(edits) {
                let before = table_of(&image);
                let edited = tables::edited(&before, rng);
                since.changed(&before, &edited);
                image = encode(&edited);
                self.met.accounted(&book);
                self.met.delivered(&letters);
                book = Book::open(&image);
                letters = Letters::open(&image);
            }
            self.beside(&image, record, rng)?;
            if whys.one_in(64) {
                self.reasons(&image, whys)?;
            }
            let (_, next, answer) = self.taken(&image, record, &UNWRITTEN)?;
            book.enter(&image, record, &answer, &next)?;
            letters.enter(&image, record, &answer, &next)?;
            let (before, after) = (table_of(&image), table_of(&next));
            image = next;
            if after.clock != before.clock {
                self.met.ticked(&since, &before, &after);
            }
            since.changed(&before, &after);
        }
        self.met.accounted(&book);
        self.met.delivered(&letters);
        Ok(())
    }

    /// Some trials on copies of the image, which the walk does not go on from.
    fn beside(&mut self, image: &[u8], record: &[u8], rng: &mut Rng) -> Told {
        if rng.one_in(4) {
            let bad = tables::bad_record(record, rng);
            self.step(image, &bad, &UNWRITTEN)?;
        }
        if rng.one_in(2) {
            let mut damaged = image.to_vec();
            tables::damage(&mut damaged, rng);
            self.image(&damaged, record)?;
        }
        if rng.one_in(4) {
            let broken = tables::broken(&table_of(image), rng);
            self.image(&encode(&broken), record)?;
        }
        if rng.one_in(16) {
            let short = rng.below(ANSWER);
            self.step(image, record, &UNWRITTEN[..short])?;
            let mut other = image.to_vec();
            other.resize(rng.pick(&[0, 1, LENGTH - 1, LENGTH + 1, 2 * LENGTH]), 0);
            self.step(&other, record, &UNWRITTEN[..short])?;
            self.image(&other, record)?;
        }
        Ok(())
    }

    /// Why no task of a table runs, or which does: as it is, with tasks that wait on one another, broken and damaged; of
    /// an image of another length; and into a buffer that is too short.
    fn reasons(&mut self, image: &[u8], rng: &mut Rng) -> Told {
        let table = table_of(image);
        let chained = tables::chained(&table, rng);
        if !well_formed(&chained) {
            return Err(format!("the chain of tasks is not well formed\nimage {}", hex(&encode(&chained))));
        }
        let mut damaged = encode(&chained);
        tables::damage(&mut damaged, rng);
        let broken = encode(&tables::broken(&chained, rng));
        for image in [image, &encode(&chained), &broken, &damaged, &image[..rng.below(LENGTH)]] {
            reasons::asked_for_all(self.library, &mut self.met, self.wrong, image)?;
            let short = &reasons::UNASKED[..rng.below(reasons::REASONS)];
            reasons::asked(self.library, &mut self.met, self.wrong, image, rng.below(18) as u8, short)?;
        }
        Ok(())
    }

    /// An image of whatever content and length: its check, and a step from it.
    fn image(&mut self, image: &[u8], record: &[u8]) -> Told {
        let sound = decode(image).map_or(false, |table| well_formed(&table));
        let expected = u32::from(!sound ^ (self.wrong == Wrong::Check));
        let given = self.library.check(image);
        if given != expected {
            return Err(format!("check: the library gives {given}, the model {expected}\nimage {}", hex(image)));
        }
        self.met.checked(sound);
        self.step(image, record, &UNWRITTEN).map(drop)
    }

    /// One step of both; the image after it.
    pub fn step(&mut self, image: &[u8], record: &[u8], answer: &[u8]) -> Result<Vec<u8>, String> {
        self.taken(image, record, answer).map(|(_, after, _)| after)
    }

    /// One step of both, and what both give.
    fn taken(&mut self, image: &[u8], record: &[u8], answer: &[u8]) -> Result<Given, String> {
        let given = self.library.step(image, record, answer);
        let expected = self.expected(image, record, answer);
        if given != expected {
            return Err(difference(image, record, &given, &expected));
        }
        let number = u8::try_from(given.0).expect("the model's number is a byte");
        self.met.stepped(number, record);
        if given.2.len() >= ANSWER {
            self.met.counted(&given.2[8..16], given.2[5]);
        }
        self.counts.add(record, number, self.library.spent());
        self.lit(&given.1)?;
        Ok(given)
    }

    /// What the lamp shows of an image: of a well-formed table by its entries, of any other by its word.
    fn lit(&mut self, image: &[u8]) -> Told {
        let sound = decode(image).filter(well_formed);
        let expected = match (&sound, self.wrong) {
            (Some(table), Wrong::Lowest) if table.levels != 0 => table.levels.trailing_zeros(),
            (Some(table), _) => table.lamp().map_or(DARK, u32::from),
            (None, _) => shown(image),
        };
        let given = self.library.lamp(image);
        if given != expected {
            return Err(format!("lamp: the library gives {given}, the model {expected}\nimage {}", hex(image)));
        }
        if sound.is_some() {
            self.met.lit(given);
        }
        Ok(())
    }

    /// What the model gives for a step.
    fn expected(&self, image: &[u8], record: &[u8], answer: &[u8]) -> Given {
        let mut after = (NO_ROOM, image.to_vec(), answer.to_vec());
        if answer.len() < ANSWER {
            return after;
        }
        let mut table = decode(image);
        let mut said = match (&mut table, self.wrong) {
            (Some(table), Wrong::Rule(fault)) if well_formed(table) => fault.step(table, record),
            (Some(table), _) => step(table, record),
            (None, _) => Answer::BROKEN,
        };
        if let (0, Some(table)) = (said.number, &table) {
            after.1 = encode(table);
            after.1[LENGTH - 1] ^= u8::from(self.wrong == Wrong::Image);
        }
        said.argument ^= u16::from(self.wrong == Wrong::Answer);
        said.skipped -= u64::from(self.wrong == Wrong::Skipped).min(said.skipped);
        if let (Wrong::Walked, 0, Some(after)) = (self.wrong, said.number, &table) {
            said.walked = walk_of_higher(&table_of(image), after).unwrap_or(said.walked);
        }
        after.0 = said.number.into();
        after.2[..ANSWER].copy_from_slice(&answer_bytes(&said));
        after
    }

    /// A fresh table from whatever bytes, into a buffer of the right length and one of another.
    fn fresh(&mut self, config: &[u8], rng: &mut Rng) -> Told {
        let length = rng.pick(&[0, LENGTH - 1, LENGTH, LENGTH, LENGTH, LENGTH + 1]);
        let before: Vec<u8> = (0..length).map(|_| rng.byte()).collect();
        let expected = match fresh(config).filter(|_| self.wrong != Wrong::Fresh) {
            _ if length != LENGTH => (NO_ROOM, before.clone()),
            Some(table) => (0, encode(&table)),
            None => (2, before.clone()),
        };
        let given = self.library.fresh(config, &before);
        if given != expected {
            return Err(format!(
                "fresh: the library gives {}, the model {}, into {length} bytes\n\
                 configuration {}\nlibrary {}\nmodel   {}",
                given.0,
                expected.0,
                hex(config),
                hex(&given.1),
                hex(&expected.1)
            ));
        }
        self.met.made(given.0 as u8);
        Ok(())
    }
}

/// What the lamp shows of any bytes: the highest bit of the word, where they have an image's length.
fn shown(image: &[u8]) -> u32 {
    match image.get(WORD..WORD + 2) {
        Some([high, low]) if image.len() == LENGTH => {
            let word = u16::from_be_bytes([*high, *low]);
            if word == 0 {
                DARK
            } else {
                15 - word.leading_zeros()
            }
        }
        _ => DARK,
    }
}

/// The word that an image without one is to have: bit p for each entry with state 1 (ready) and priority p.
fn levels_of(image: &[u8]) -> u16 {
    let entries = image[..416].chunks(26).filter(|entry| entry[1] == 1);
    entries.fold(0, |levels, entry| levels | 1 << entry[14])
}

/// The table of an image that the walk made; encoding it again must give the same bytes.
fn table_of(image: &[u8]) -> Table {
    let table = decode(image).expect("the walk's image is one");
    assert!(encode(&table) == image, "decoding and encoding differ");
    table
}

/// What a walk past those of higher priority alone would come to, where one task entered and no more.
fn walk_of_higher(before: &Table, after: &Table) -> Option<u8> {
    let ready = &after.queue[..after.queued as usize];
    let mut entered = ready.iter().filter(|number| !before.queue.contains(number));
    let priority = after.task(*entered.next()?).priority;
    if entered.next().is_some() {
        return None;
    }
    Some(ready.iter().filter(|number| after.task(**number).priority > priority).count() as u8)
}

/// Walks until so many steps are taken: whether everything was met; `None` where something differs.
pub fn walked(trial: &mut Trial, steps: u64) -> Option<bool> {
    let begun = Instant::now();
    let seed = trial.seed;
    if trial.wrong == Wrong::Nothing {
        if let Err(difference) = trial.intervals().and_then(|()| trial.before_days()).and_then(|()| trial.equals()) {
            println!("{difference}");
            return None;
        }
    }
    trial.counts = Counts::default();
    let all = trial.met.steps() + steps;
    let mut index = 0;
    while trial.met.steps() < all {
        if let Err(difference) = trial.walk(index) {
            println!("run {index} of seed {seed}: {difference}");
            return None;
        }
        index += 1;
    }
    let complete = trial.met.print();
    let seconds = begun.elapsed().as_secs_f64();
    println!("{index} runs of seed {seed} agree, {seconds:.1} s");
    Some(complete)
}

fn hex(bytes: &[u8]) -> String {
    bytes.iter().map(|byte| format!("{byte:02X}")).collect()
}

/// A step that differs, in words.
fn difference(image: &[u8], record: &[u8], given: &Given, expected: &Given) -> String {
    let both = given.1.iter().zip(&expected.1).enumerate();
    let bytes: Vec<String> = both
        .filter(|(_, (one, other))| one != other)
        .map(|(at, (one, other))| format!("byte {at} of the image: {one:02X}, {other:02X}\n"))
        .collect();
    format!(
        "a step differs\nimage  {}\nrecord {}\nlibrary: {}, answer {}\nmodel:   {}, answer {}\n{}",
        hex(image),
        hex(record),
        given.0,
        hex(&given.2),
        expected.0,
        hex(&expected.2),
        bytes.concat()
    )
}
