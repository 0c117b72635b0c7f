//! What is made wrong in the model, to show that the trial finds it.

use model::faults::{Fault, FAULTS, OF_IMAGES};
use model::why;

#[derive(Clone, Copy, PartialEq, Eq)]
pub enum Wrong {
    Nothing,
    Rule(Fault),
    Answer,
    Skipped,
    Walked,
    Image,
    Check,
    Fresh,
    Lowest,
    Why(why::Fault),
}

/// Those that are no rule of the model, by name.
const WRONGS: [(&str, Wrong); 7] = [
    ("answer", Wrong::Answer),
    ("one-skipped-too-few", Wrong::Skipped),
    ("walk-of-higher-only", Wrong::Walked),
    ("image", Wrong::Image),
    ("check", Wrong::Check),
    ("fresh", Wrong::Fresh),
    ("lamp-lowest", Wrong::Lowest),
];

/// What is made wrong, by its name.
pub fn wrong_of(name: &str) -> Option<Wrong> {
    let rules = FAULTS.iter().chain(&OF_IMAGES).map(|(known, fault)| (*known, Wrong::Rule(*fault)));
    let whys = why::FAULTS.iter().map(|(known, fault)| (*known, Wrong::Why(*fault)));
    rules.chain(WRONGS).chain(whys).find(|(known, _)| *known == name).map(|(_, wrong)| wrong)
}
