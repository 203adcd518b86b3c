//! Asks the original workclock, over jiff, and hirgwamo, over the proved code, the
//! same questions, and compares every answer and every error.
//!
//!     random schedules SEED COUNT   a plain schedule in each zone of the system, and
//!                                   COUNT random ones; local times near the changes
//!                                   of each zone, with their marks
//!     random names FOLDER           every name below the zone folder that is in use
//!
//! Prints how much was compared and each difference, and ends with 1 if there is
//! one that is not known.

mod compared;
mod local;
mod names;
mod plan;
mod questions;
mod rng;
mod schedules;
mod sides;

use std::path::Path;
use std::process::ExitCode;

fn main() -> ExitCode {
    let words: Vec<String> = std::env::args().skip(1).collect();
    let words: Vec<&str> = words.iter().map(String::as_str).collect();
    let same = match words[..] {
        ["schedules", seed, count] => match (seed.parse(), count.parse()) {
            (Ok(seed), Ok(count)) => schedules::run(seed, count),
            _ => return usage(),
        },
        ["names", folder] => names::run(Path::new(folder)),
        _ => return usage(),
    };
    if same {
        ExitCode::SUCCESS
    } else {
        ExitCode::FAILURE
    }
}

fn usage() -> ExitCode {
    eprintln!("usage: random schedules SEED COUNT | random names FOLDER");
    ExitCode::from(2)
}
