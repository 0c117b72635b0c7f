//! The second program: the executive of document 01 again, to hold the proved one against.

mod compare;
mod coverage;
mod speed;

use model::configuration::fresh_from_start;
use model::faults::FAULTS;
use model::records::cut;
use model::steps::{step, step_unchecked};
use model::table::Table;
use model::{bench, cards, ending, image, mend, mixes, runs, why};
use std::io::{Read, Write};
use std::process::ExitCode;

const USAGE: &str = "usage: second listing [--no-check] [--fault NAME] < input
       second cards
       second trial
       second compare PROGRAM [--part] [--runs N] [--seed S]
       second speed PROGRAM [--rounds N]
       second mix NAME
       second image < input
       second why TASK < image
       second mend < image
       second from IMAGE < steps
       second run INDEX [--seed S]";

fn main() -> ExitCode {
    let words: Vec<String> = std::env::args().skip(1).collect();
    let words: Vec<&str> = words.iter().map(String::as_str).collect();
    let right = match words.as_slice() {
        ["listing", options @ ..] => listing(options),
        ["cards"] => Some(cards::cards()),
        ["trial"] => Some(compare::trial()),
        // a part of a comparison, too short to meet everything
        ["compare", program, "--part", options @ ..] => {
            options_of(options, [2_000, 1]).map(|[runs, seed]| compare::compare(program, runs, seed).is_some())
        }
        ["compare", program, options @ ..] => {
            options_of(options, [20_000, 1]).map(|[runs, seed]| compare::compare(program, runs, seed) == Some(true))
        }
        ["speed", program] => Some(speed::speed(program, 15)),
        ["speed", program, "--rounds", rounds] => {
            rounds.parse().ok().filter(|rounds| *rounds > 0).map(|rounds| speed::speed(program, rounds))
        }
        ["run", index, options @ ..] => print_run(index, options),
        ["mix", name] => print_mix(name),
        ["image"] => Some(print_image()),
        ["why", task] => task.parse().ok().map(print_why),
        ["mend"] => Some(print_mended()),
        ["from", image] => Some(print_from(image)),
        _ => None,
    };
    ending::ending(right, USAGE)
}

/// `--runs N` and `--seed S`, in any order, over what they are without.
fn options_of(mut words: &[&str], mut values: [u64; 2]) -> Option<[u64; 2]> {
    while let [name, value, rest @ ..] = words {
        let place = ["--runs", "--seed"].iter().position(|known| known == name)?;
        values[place] = value.parse().ok()?;
        words = rest;
    }
    words.is_empty().then_some(values)
}

/// The bench: standard input to standard output, without the check, or with a fault.
fn listing(options: &[&str]) -> Option<bool> {
    let output = match options {
        [] => input().map(|input| bench::listing(&input, step)),
        ["--no-check"] => input().map(|input| bench::listing(&input, step_unchecked)),
        ["--fault", name] => {
            let (_, fault) = FAULTS.iter().find(|(known, _)| known == name)?;
            input().map(|input| bench::listing(&input, |table, record| fault.step(table, record)))
        }
        _ => return None,
    };
    Some(output.and_then(|output| std::io::stdout().lock().write_all(&output)).is_ok())
}

/// Standard input, up to a byte more than the bench takes.
fn input() -> std::io::Result<Vec<u8>> {
    let mut input = Vec::new();
    std::io::stdin().lock().take(bench::LONGEST_INPUT as u64 + 1).read_to_end(&mut input)?;
    Ok(input)
}

/// A generated run's bytes, to look at one.
fn print_run(index: &str, options: &[&str]) -> Option<bool> {
    let [_, seed] = options_of(options, [0, 1])?;
    let bytes = runs::run(seed, index.parse().ok()?);
    Some(std::io::stdout().lock().write_all(&bytes).is_ok())
}

/// A long input of the speed runs.
fn print_mix(name: &str) -> Option<bool> {
    let mixes = mixes::mixes();
    let (_, bytes) = mixes.iter().find(|(known, _)| *known == name)?;
    Some(std::io::stdout().lock().write_all(bytes).is_ok())
}

/// The image after a run: that of its configuration and of all its steps.
fn print_image() -> bool {
    match input().ok().and_then(|input| after(&input)) {
        Some(table) => std::io::stdout().lock().write_all(&image::encode(&table)).is_ok(),
        None => {
            eprintln!("second: standard input is no whole run.");
            false
        }
    }
}

fn after(input: &[u8]) -> Option<Table> {
    let (mut table, used) = fresh_from_start(input)?;
    let mut rest = &input[used..];
    while !rest.is_empty() {
        let (record, more) = cut(rest).ok()?;
        step(&mut table, record);
        rest = more;
    }
    Some(table)
}

/// Why a task of an image is not running, in words.
fn print_why(task: u8) -> bool {
    let told = input().map(|bytes| match image::decode(&bytes) {
        Some(table) => why::told(&why::why(&table, task), table.clock),
        None => "refused 1\n".to_string(),
    });
    told.and_then(|told| std::io::stdout().lock().write_all(told.as_bytes())).is_ok()
}

/// A mended image, and the list of what was mended on standard error; the list alone where it is refused.
fn print_mended() -> bool {
    let done = input().and_then(|bytes| {
        let mended = mend::mend_image(&bytes);
        let image: &[u8] = if mended.number == 0 { &mended.image } else { &[] };
        std::io::stdout().lock().write_all(image)?;
        std::io::stderr().lock().write_all(mend::told(&bytes, &mended).as_bytes())
    });
    done.is_ok()
}

/// The listing of the steps on standard input, from the image in a file on.
fn print_from(file: &str) -> bool {
    let table = std::fs::read(file).ok().and_then(|bytes| image::decode(&bytes));
    match (table, input()) {
        (Some(table), Ok(steps)) => {
            std::io::stdout().lock().write_all(&bench::listing_from(table, &steps, step)).is_ok()
        }
        _ => {
            eprintln!("second: '{file}' is no image, or the steps cannot be read.");
            false
        }
    }
}
