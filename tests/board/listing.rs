//! The bench's listing by the board library: standard input to standard output, as `./bench` runs a program.

use crate::answer::ANSWER;
use crate::library::Library;
use model::bench::LONGEST_INPUT;
use model::configuration::fresh_from_start;
use model::image::LENGTH;
use model::records::cut;
use std::io::{Read, Write};

/// False where the input cannot be read or the listing not be written.
pub fn listing(library: &mut Library) -> bool {
    let mut input = Vec::new();
    std::io::stdin().lock().read_to_end(&mut input).is_ok() && written(of(library, &input).as_bytes())
}

/// Writes bytes to standard output; false where they cannot be.
pub fn written(bytes: &[u8]) -> bool {
    std::io::stdout().lock().write_all(bytes).is_ok()
}

fn of(library: &mut Library, input: &[u8]) -> String {
    if input.len() > LONGEST_INPUT {
        return "stop 12\n".to_string();
    }
    let used = fresh_from_start(input).map_or(input.len(), |(_, used)| used);
    let (number, image) = library.fresh(&input[..used], &[0; LENGTH]);
    if number != 0 {
        return format!("stop {number}\n");
    }
    steps(library, image, &input[used..])
}

/// The listing of the steps on standard input, from the image in a file on; false where one cannot be read.
pub fn from(library: &mut Library, file: &str) -> bool {
    let mut input = Vec::new();
    let read = std::io::stdin().lock().read_to_end(&mut input);
    match (std::fs::read(file), read) {
        (Ok(image), Ok(_)) if library.check(&image) == 0 => written(steps(library, image, &input).as_bytes()),
        _ => false,
    }
}

fn steps(library: &mut Library, mut image: Vec<u8>, mut rest: &[u8]) -> String {
    // granule, count and the queue's first place, by docs/TABLE.md
    let mut lines = vec![format!("granule {} tasks {} active {}\n", image[434], image[433], image[416])];
    let mut step = 0;
    while !rest.is_empty() {
        let (record, more) = match cut(rest) {
            Ok(parts) => parts,
            Err(stop) => {
                lines.push(format!("stop {stop}\n"));
                return lines.concat();
            }
        };
        step += 1;
        let (number, after, answer) = library.step(&image, record, &[0; ANSWER]);
        let [_, z, v, c, active] = [0, 1, 2, 3, 4].map(|place| answer[place]);
        lines.push(format!("{step} {:02X} {number} {z}{v}{c} {active}\n", record[0]));
        image = after;
        rest = more;
    }
    lines.push("end\n".to_string());
    lines.concat()
}
