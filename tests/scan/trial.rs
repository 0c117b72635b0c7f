//! The second engine against the first, answer by answer, and against the second program's model of it.

#[path = "../board/answer.rs"]
mod answer;
mod engines;
#[path = "../board/guarded.rs"]
mod guarded;
mod met;
mod numbers;
// no instructions are counted here
#[allow(dead_code)]
#[path = "../board/piped.rs"]
mod piped;
mod speed;
#[path = "../board/tables.rs"]
mod tables;
mod walk;
mod wrong;

use engines::Place;
use model::ending::ending;
use std::process::ExitCode;
use walk::{walked, Trial};
use wrong::{wrong_of, Wrong};

const USAGE: &str = "usage: scan-trial [--part] [--steps N] [--seed S] [--fault NAME]
       scan-trial --speed [--rounds N]";

/// `--steps N`, `--seed S` and `--fault NAME`, in any order.
fn options_of(mut words: &[&str]) -> Option<(u64, u64, Wrong)> {
    let (mut steps, mut seed, mut wrong) = (1_000_000, 1, Wrong::Nothing);
    while let [name, value, rest @ ..] = words {
        match *name {
            "--steps" => steps = value.parse().ok()?,
            "--seed" => seed = value.parse().ok()?,
            "--fault" => wrong = wrong_of(value)?,
            _ => return None,
        }
        words = rest;
    }
    words.is_empty().then_some((steps, seed, wrong))
}

/// What the words ask for: whether all is right; `None` where they are none of its own.
fn asked(place: &mut Place, words: &[&str]) -> Option<bool> {
    match words {
        ["--speed"] => Some(speed::speed(place, 15)),
        ["--speed", "--rounds", rounds] => {
            rounds.parse().ok().filter(|rounds| *rounds > 0).map(|rounds| speed::speed(place, rounds))
        }
        // a part of a trial, too short to meet everything
        ["--part", options @ ..] => {
            options_of(options).map(|(steps, seed, wrong)| walked(&mut Trial::new(place, seed, wrong), steps).is_some())
        }
        options => options_of(options)
            .map(|(steps, seed, wrong)| walked(&mut Trial::new(place, seed, wrong), steps) == Some(true)),
    }
}

fn main() -> ExitCode {
    let words: Vec<String> = std::env::args().skip(1).collect();
    let words: Vec<&str> = words.iter().map(String::as_str).collect();
    match Place::open() {
        Ok(mut place) => ending(asked(&mut place, &words), USAGE),
        Err(why) => {
            eprintln!("scan-trial: {why}");
            ExitCode::FAILURE
        }
    }
}
