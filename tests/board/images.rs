//! Images for whoever judges them: sound, damaged and broken ones, each with the number of the library's check.

use crate::library::Library;
use crate::tables::{broken, damage, edited};
use model::configuration::fresh_from_start;
use model::image::encode;
use model::records::records_of;
use model::runs::{run, Rng};
use model::steps::step;
use model::table::Table;
use std::io::{BufWriter, Write};

/// The most images that are taken of one generated run.
const OF_A_RUN: usize = 60;

/// Writes so many of them to standard output; false where they cannot be written.
pub fn images(library: &mut Library, many: usize) -> bool {
    let mut out = BufWriter::new(std::io::stdout().lock());
    let mut written = 0;
    for index in 0.. {
        let rng = &mut Rng::new(2, index);
        let bytes = run(1, index);
        let (mut table, used) = match fresh_from_start(&bytes) {
            Some(begun) => begun,
            None => continue,
        };
        for record in records_of(&bytes[used..]).into_iter().take(OF_A_RUN) {
            if written == many {
                return out.flush().is_ok();
            }
            if rng.one_in(6) {
                table = edited(&table, rng);
            }
            step(&mut table, record);
            let image = varied(&table, rng);
            let number = library.check(&image) as u8;
            if out.write_all(&image).and_then(|()| out.write_all(&[number])).is_err() {
                return false;
            }
            written += 1;
        }
    }
    true
}

/// The image of a table, as it is, with a rule broken, or with bytes changed.
fn varied(table: &Table, rng: &mut Rng) -> Vec<u8> {
    let mut image = encode(table);
    match rng.below(4) {
        0 => {}
        1 => damage(&mut image, rng),
        _ => image = encode(&broken(table, rng)),
    }
    image
}
