//! The board library against the second program's model, on random tables, damaged images and bad records.

mod account;
mod answer;
mod book;
mod counts;
mod guarded;
mod images;
mod letters;
mod library;
mod linked;
mod listing;
mod met;
mod piped;
mod reasons;
mod short;
mod speed;
mod tables;
mod walk;
mod wrong;

use library::Library;
use model::configuration::fresh_from_start;
use model::ending::ending;
use model::image::encode;
use model::records::records_of;
use model::runs::run;
use std::process::ExitCode;
use walk::{walked, Trial, UNWRITTEN};
use wrong::{wrong_of, Wrong};

const USAGE: &str = "usage: trial [--steps N] [--seed S] [--fault NAME]
       trial --part [--steps N] [--seed S]
       trial --account [--steps N] [--seed S] [--fault NAME]
       trial --instructions [--steps N] [--seed S]
       trial --listing < input
       trial --from IMAGE < steps
       trial --images N
       trial --run INDEX
       trial --passes WAY MIX N
       trial --speed [--rounds N]";

/// `--steps N`, `--seed S` and `--fault NAME`, in any order.
fn options_of(mut words: &[&str]) -> Option<(u64, u64, Wrong)> {
    let (mut steps, mut seed, mut wrong) = (1_000_000, 1, Wrong::Nothing);
    while let [name, value, rest @ ..] = words {
        match *name {
            "--steps" => steps = value.parse().ok()?,
            "--seed" => seed = value.parse().ok()?,
            "--fault" => wrong = wrong_of(value)?,
            _ => return None,
        }
        words = rest;
    }
    words.is_empty().then_some((steps, seed, wrong))
}

/// The instructions of each step, of the mixes and of a trial, compared with the model; true if nothing differs.
fn instructions(library: &mut Library, steps: u64, seed: u64) -> bool {
    for (name, input) in short::short_mixes() {
        let mut trial = Trial::new(library, seed, Wrong::Nothing);
        let (table, used) = fresh_from_start(&input).expect("a mix has a configuration");
        let mut image = encode(&table);
        for record in records_of(&input[used..]) {
            match trial.step(&image, record, &UNWRITTEN) {
                Ok(after) => image = after,
                Err(difference) => {
                    println!("{name}: {difference}");
                    return false;
                }
            }
        }
        if !trial.counts.print(name) {
            println!("{name}: nothing counts the instructions");
            return false;
        }
    }
    let mut trial = Trial::new(library, seed, Wrong::Nothing);
    walked(&mut trial, steps).is_some() && trial.counts.print("the trial")
}

/// What the words ask for: whether all is right; `None` where they are none of its own.
fn asked(library: &mut Library, words: &[&str]) -> Option<bool> {
    match words {
        ["--speed"] => Some(speed::speed(library, 15)),
        ["--speed", "--rounds", rounds] => {
            rounds.parse().ok().filter(|rounds| *rounds > 0).map(|rounds| speed::speed(library, rounds))
        }
        ["--passes", way, mix, passes] => {
            passes.parse().ok().and_then(|passes| speed::passes(library, way, mix, passes))
        }
        ["--listing"] => Some(listing::listing(library)),
        ["--from", image] => Some(listing::from(library, image)),
        ["--run", index] => index.parse().ok().map(|index| listing::written(&run(1, index))),
        ["--images", many] => many.parse().ok().map(|many| images::images(library, many)),
        // a part of a trial, too short to meet everything
        ["--part", options @ ..] => options_of(options)
            .map(|(steps, seed, wrong)| walked(&mut Trial::new(library, seed, wrong), steps).is_some()),
        // the model alone, held to the accounts of starts and messages; what is made wrong is one of its rules, or nothing
        ["--account", options @ ..] => options_of(options)
            .filter(|(_, _, wrong)| matches!(wrong, Wrong::Nothing | Wrong::Rule(_)))
            .map(|(steps, seed, wrong)| account::accounted(steps, seed, wrong)),
        ["--instructions", options @ ..] => options_of(options)
            .filter(|(_, _, wrong)| *wrong == Wrong::Nothing)
            .map(|(steps, seed, _)| instructions(library, steps, seed)),
        options => options_of(options)
            .map(|(steps, seed, wrong)| walked(&mut Trial::new(library, seed, wrong), steps) == Some(true)),
    }
}

fn main() -> ExitCode {
    let words: Vec<String> = std::env::args().skip(1).collect();
    let words: Vec<&str> = words.iter().map(String::as_str).collect();
    match Library::open() {
        Ok(mut library) => ending(asked(&mut library, &words), USAGE),
        Err(why) => {
            eprintln!("trial: {why}");
            ExitCode::FAILURE
        }
    }
}
