//! The walks through generated runs, by both engines and by the model of the second, step beside step.

use crate::answer::{answer_bytes, ANSWER};
use crate::engines::{Place, QUEUE, SCAN};
use crate::met::Met;
use crate::numbers::{raised, BREAKS, LASTS};
use crate::tables;
use crate::wrong::Wrong;
use model::configuration::fresh_from_start;
use model::image;
use model::records::records_of;
use model::runs::{run, Rng};
use model::scan::{Scanned, LAST_ARRIVAL, LENGTH};
use model::table::{Answer, Table, TASKS};
use std::time::Instant;

/// The most steps that are taken of one generated run.
const LONGEST_WALK: usize = 400;
/// The number where a buffer that is to be written to has not the length it needs.
const NO_ROOM: u32 = 30;
/// What stands in the answer's buffer before a step.
const UNWRITTEN: [u8; ANSWER + 4] = [0xA5; ANSWER + 4];

/// What a step gives: the number returned, and the bytes of image and answer after it.
type Given = (u32, Vec<u8>, Vec<u8>);

/// A difference in words, with its image and record in hex.
type Told = Result<(), String>;

pub struct Trial<'a> {
    place: &'a mut Place,
    seed: u64,
    wrong: Wrong,
    met: Met,
}

/// The images of both engines, which hold the same entries and rest.
struct Both {
    queue: Vec<u8>,
    scan: Vec<u8>,
}

impl Both {
    /// Those of a table, the second with this last number where one is given.
    fn of(table: &Table, last: Option<u32>, rng: &mut Rng) -> Both {
        let scanned = Scanned::of(table);
        let scanned = last.map_or(scanned, |last| raised(&scanned, last, rng));
        Both { queue: image::encode(table), scan: scanned.encode() }
    }

    fn table(&self) -> Table {
        image::decode(&self.queue).expect("the walk's image is one")
    }

    /// Whether they have the same entries and rest: the second's is the first's with nobody in its queue.
    fn are_alike(&self) -> bool {
        let none = Table { queue: [0; TASKS], queued: 0, levels: 0, ..self.table() };
        self.scan.starts_with(&image::encode(&none))
    }
}

impl Trial<'_> {
    pub fn new(place: &mut Place, seed: u64, wrong: Wrong) -> Trial<'_> {
        Trial { place, seed, wrong, met: Met::default() }
    }

    /// Sixteen tasks of one priority pause and a tick wakes them all, each time with one number less left to give: none
    /// to sixteen are ready where they are renumbered. Then the caller restarts with the fifteen others ready.
    fn equals(&mut self) -> Told {
        let rng = &mut Rng::new(self.seed, 0);
        let tasks = [[0x41, 7, 1]; TASKS].concat();
        let config = [&[0x40, 1], tasks.as_slice(), &[0x42]].concat();
        let ready = fresh_from_start(&config).expect("a good configuration").0;
        let mut paused = Both::of(&ready, None, rng);
        for _ in 0..TASKS {
            paused = self.step(&paused, &[0x02, 0, 1])?;
        }
        for left in 0..=TASKS as u32 {
            let last = LAST_ARRIVAL - left;
            let both = self.step(&Both::of(&paused.table(), Some(last), rng), &[0x80])?;
            self.step(&both, &[0x00])?;
            let both = self.step(&Both::of(&ready, Some(last), rng), &[0x01, 0, 0])?;
            self.step(&both, &[0x01, 0, 0])?;
        }
        println!("sixteen equals agree, with none to sixteen numbers left");
        Ok(())
    }

    /// Walks through one generated run, with edits, damage and bad records on the way.
    fn walk(&mut self, index: u64) -> Told {
        let rng = &mut Rng::new(!self.seed, index);
        let bytes = run(self.seed, index);
        let used = fresh_from_start(&bytes).map_or(bytes.len(), |(_, used)| used);
        self.fresh(&bytes[..used], rng)?;
        self.fresh(&bytes, rng)?;
        let mut both = match fresh_from_start(&bytes) {
            Some((table, _)) => Both::of(&table, None, rng),
            None => return Ok(()),
        };
        let edits = rng.pick(&[6, 20, 60, 1000]);
        for record in records_of(&bytes[used..]).into_iter().take(LONGEST_WALK) {
            if rng.one_in(edits) {
                both = self.changed(&both, rng);
            }
            self.beside(&both, record, rng)?;
            both = self.step(&both, record)?;
        }
        Ok(())
    }

    /// The table edited, or with its tasks waiting on one another, or as it is; and mostly numbers near their end.
    fn changed(&mut self, both: &Both, rng: &mut Rng) -> Both {
        let table = match rng.below(4) {
            0 => tables::edited(&both.table(), rng),
            1 => tables::chained(&both.table(), rng),
            _ => both.table(),
        };
        if rng.one_in(4) {
            return Both::of(&table, None, rng);
        }
        let which = rng.below(LASTS.len());
        self.met.begun[which] += 1;
        Both::of(&table, Some(LASTS[which]), rng)
    }

    /// Some trials on copies of the images, which the walk does not go on from.
    fn beside(&mut self, both: &Both, record: &[u8], rng: &mut Rng) -> Told {
        if rng.one_in(4) {
            self.step(both, &tables::bad_record(record, rng))?;
        }
        if rng.one_in(2) {
            let mut damaged = both.scan.clone();
            tables::damage(&mut damaged, rng);
            self.image(&damaged, record)?;
        }
        if rng.one_in(4) {
            let broken = tables::broken(&both.table(), rng);
            let numbers = &both.scan[image::LENGTH..];
            self.image(&[&image::encode(&broken), numbers].concat(), record)?;
            let none = Table { queue: [0; TASKS], queued: 0, levels: 0, ..broken };
            self.image(&[&image::encode(&none), numbers].concat(), record)?;
        }
        if rng.one_in(4) {
            let which = rng.below(BREAKS.len());
            let mut broken = both.scan.clone();
            if BREAKS[which].1(&mut broken, rng) {
                self.image(&broken, record)?;
                self.met.breaks[which] += 1;
            }
        }
        if rng.one_in(16) {
            let short = rng.below(ANSWER);
            self.scanned(&both.scan, record, &UNWRITTEN[..short])?;
            let mut other = both.scan.clone();
            other.resize(rng.pick(&[0, 1, image::LENGTH, LENGTH - 1, LENGTH + 1, 2 * LENGTH]), 0);
            self.scanned(&other, record, &UNWRITTEN[..short])?;
            self.image(&other, record)?;
        }
        Ok(())
    }

    /// An image of whatever content and length: its check, and a step from it.
    fn image(&mut self, image: &[u8], record: &[u8]) -> Told {
        let sound = Scanned::decode(image).map_or(false, |table| table.well_formed());
        let expected = u32::from(!sound ^ (self.wrong == Wrong::Check));
        let given = self.place.check(&SCAN, image);
        if given != expected {
            return Err(format!("check: the engine gives {given}, the model {expected}\nimage {}", hex(image)));
        }
        self.met.checked(sound);
        self.scanned(image, record, &UNWRITTEN).map(drop)
    }

    /// One step of both engines: the same number, the same bytes of the answer, and tables that are alike.
    fn step(&mut self, both: &Both, record: &[u8]) -> Result<Both, String> {
        let (number, scan, told) = self.scanned(&both.scan, record, &UNWRITTEN)?;
        let (first, queue, mut said) = self.place.step(&QUEUE, &both.queue, record, &UNWRITTEN);
        said[ANSWER - 1] ^= u8::from(self.wrong == Wrong::Queue);
        let after = Both { queue, scan };
        if number != first || told != said || !after.are_alike() {
            return Err(format!(
                "the engines differ\nimage  {}\nimage  {}\nrecord {}\nby a queue: {first}, answer {}\nby a scan:  {number}, answer {}",
                hex(&both.queue),
                hex(&both.scan),
                hex(record),
                hex(&said),
                hex(&told)
            ));
        }
        self.met.alike += 1;
        Ok(after)
    }

    /// One step of the second engine and of its model, and what both give.
    fn scanned(&mut self, image: &[u8], record: &[u8], answer: &[u8]) -> Result<Given, String> {
        let given = self.place.step(&SCAN, image, record, answer);
        let mut table = Scanned::decode(image);
        let taken = table.as_mut().map(|table| table.step(record, self.wrong.rule()));
        let said = taken.as_ref().map_or(Answer::BROKEN, |taken| taken.answer);
        let mut expected = (NO_ROOM, image.to_vec(), answer.to_vec());
        if answer.len() >= ANSWER {
            expected.0 = said.number.into();
            expected.2[..ANSWER].copy_from_slice(&answer_bytes(&said));
            if let (0, Some(table)) = (said.number, &table) {
                expected.1 = table.encode();
            }
        }
        if given != expected {
            return Err(difference(image, record, &given, &expected));
        }
        let told = taken.as_ref().filter(|_| expected.0 != NO_ROOM);
        self.met.stepped(record, expected.0 as u8, told, table.as_ref());
        Ok(given)
    }

    /// A fresh table from whatever bytes, into a buffer of the right length and one of another; of both engines the same
    /// number.
    fn fresh(&mut self, config: &[u8], rng: &mut Rng) -> Told {
        let length = rng.pick(&[0, image::LENGTH, LENGTH - 1, LENGTH, LENGTH, LENGTH, LENGTH + 1]);
        let before: Vec<u8> = (0..length).map(|_| rng.byte()).collect();
        let expected = match Scanned::fresh(config).filter(|_| self.wrong != Wrong::Fresh) {
            _ if length != LENGTH => (NO_ROOM, before.clone()),
            Some(table) => (0, table.encode()),
            None => (2, before.clone()),
        };
        let given = self.place.fresh(&SCAN, config, &before);
        let (first, _) = self.place.fresh(&QUEUE, config, &[0; image::LENGTH]);
        if given != expected || length == LENGTH && given.0 != first {
            return Err(format!(
                "fresh: the engine gives {}, the model {}, the other engine {first}, into {length} bytes\n\
                 configuration {}\nengine {}\nmodel  {}",
                given.0,
                expected.0,
                hex(config),
                hex(&given.1),
                hex(&expected.1)
            ));
        }
        self.met.made(given.0 as u8);
        Ok(())
    }
}

/// Walks until so many steps are taken: whether everything was met; `None` where something differs.
pub fn walked(trial: &mut Trial, steps: u64) -> Option<bool> {
    let begun = Instant::now();
    let seed = trial.seed;
    if trial.wrong == Wrong::Nothing {
        if let Err(difference) = trial.equals() {
            println!("{difference}");
            return None;
        }
    }
    let all = trial.met.steps() + steps;
    let mut index = 0;
    while trial.met.steps() < all {
        if let Err(difference) = trial.walk(index) {
            println!("run {index} of seed {seed}: {difference}");
            return None;
        }
        index += 1;
    }
    let complete = trial.met.print();
    let seconds = begun.elapsed().as_secs_f64();
    println!("{index} runs of seed {seed} agree, {seconds:.1} s");
    Some(complete)
}

fn hex(bytes: &[u8]) -> String {
    bytes.iter().map(|byte| format!("{byte:02X}")).collect()
}

/// A step that differs, in words.
fn difference(image: &[u8], record: &[u8], given: &Given, expected: &Given) -> String {
    let both = given.1.iter().zip(&expected.1).enumerate();
    let bytes: Vec<String> = both
        .filter(|(_, (one, other))| one != other)
        .map(|(at, (one, other))| format!("byte {at} of the image: {one:02X}, {other:02X}\n"))
        .collect();
    format!(
        "a step differs\nimage  {}\nrecord {}\nengine: {}, answer {}\nmodel:  {}, answer {}\n{}",
        hex(image),
        hex(record),
        given.0,
        hex(&given.2),
        expected.0,
        hex(&expected.2),
        bytes.concat()
    )
}
