//! Tables and runs for people: an image in words, a run's trace, the run explained, a picture of it.

mod calls;
mod explain;
mod image;
mod judge;
mod library;
mod picture;
mod places;
mod reasons;
mod records;
mod rules;
mod run;
mod svg;
mod table;
mod trace;
mod tracks;
mod words;

use library::Library;
use run::Run;
use std::io::{Read, Write};
use std::process::ExitCode;
use words::Names;

const USAGE: &str = "usage: view table NAMES < image
       view judge < images
       view trace NAMES < input
       view explain NAMES < input
       view picture TITLE < trace
       view image STEP < input";

fn main() -> ExitCode {
    let words: Vec<String> = std::env::args_os().skip(1).map(|word| word.to_string_lossy().into_owned()).collect();
    let words: Vec<&str> = words.iter().map(String::as_str).collect();
    match told(&words) {
        Ok((text, right)) => match std::io::stdout().lock().write_all(&text) {
            Ok(()) if right => ExitCode::SUCCESS,
            Ok(()) => ExitCode::FAILURE,
            Err(_) => failed("what is told could not be written to standard output."),
        },
        Err(why) => failed(&why),
    }
}

fn failed(why: &str) -> ExitCode {
    eprintln!("{why}");
    ExitCode::FAILURE
}

/// What is told, and whether all is right with it; else a sentence.
fn told(words: &[&str]) -> Result<(Vec<u8>, bool), String> {
    match words {
        ["table", names] => table::table(&input()?, &Names::new(names)).map(|(text, right)| (text.into(), right)),
        ["judge"] => judge::judge(&input()?).map(|text| (text.into(), true)),
        ["trace", names] => Ok((trace::trace(&run()?, &Names::new(names)).into(), true)),
        ["explain", names] => Ok((explain::explain(&run()?, &Names::new(names)).into(), true)),
        ["picture", title] => picture_of(&input()?, title).map(|picture| (picture.into(), true)),
        ["image", step] => image_after(&run()?, step).map(|image| (image, true)),
        _ => Err(USAGE.to_string()),
    }
}

fn input() -> Result<Vec<u8>, String> {
    let mut bytes = Vec::new();
    std::io::stdin().lock().read_to_end(&mut bytes).map_err(|why| format!("standard input cannot be read: {why}."))?;
    Ok(bytes)
}

fn run() -> Result<Run, String> {
    Run::of(&input()?, &mut Library::open()?)
}

/// The picture of a trace.
fn picture_of(trace: &[u8], title: &str) -> Result<String, String> {
    let text = std::str::from_utf8(trace).map_err(|_| "the trace is no text.".to_string())?;
    Ok(picture::picture(&tracks::tracks(text)?, title))
}

/// The image after a step; after step 0 the fresh one.
fn image_after(run: &Run, step: &str) -> Result<Vec<u8>, String> {
    let images: Vec<&Vec<u8>> = std::iter::once(&run.fresh).chain(run.steps.iter().map(|step| &step.image)).collect();
    let number: usize = step.parse().map_err(|_| format!("'{step}' is no step."))?;
    images.get(number).map(|image| image.to_vec()).ok_or(format!("there is no step {step} in this run."))
}
