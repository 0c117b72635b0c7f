//! How a trial program ends: 0 where all is right, 1 where something is wrong, 2 for a wrong use.

use std::process::ExitCode;

pub fn ending(right: Option<bool>, usage: &str) -> ExitCode {
    match right {
        Some(true) => ExitCode::SUCCESS,
        Some(false) => ExitCode::from(1),
        None => {
            eprintln!("{usage}");
            ExitCode::from(2)
        }
    }
}
