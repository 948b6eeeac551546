//! `compare-shorten SHORTEN [--files N] [--seed S]`: compares what SHORTEN leaves
//! of random record files with what this model leaves.

use second_model::compare::shortenings::{compare_shortening, ShortenTally, ShortenTask, NUMBERS};
use second_model::compare::threads::{on_two_threads, seed_by_the_clock};
use std::path::PathBuf;
use std::process::ExitCode;

fn main() -> ExitCode {
    let Some(task) = task() else {
        eprintln!("usage: compare-shorten SHORTEN [--files N] [--seed S]");
        return ExitCode::from(2);
    };
    println!("seed {}", task.seed);
    let compared = on_two_threads(task.files, |index, path, tally| {
        compare_shortening(&task, index, path, tally)
    });
    match compared {
        Ok((tallies, None)) => {
            let mut total = ShortenTally::default();
            tallies.iter().for_each(|tally| total.add(tally));
            print!("{}", total.report());
            warn_of_gaps(&task, &total);
            ExitCode::SUCCESS
        }
        Ok((_, Some(difference))) => {
            println!("difference on {difference}");
            ExitCode::FAILURE
        }
        Err(error) => {
            eprintln!("compare-shorten: {}: {error}", task.program.display());
            ExitCode::from(2)
        }
    }
}

/// The task that the arguments give; the seed is by the clock if not named.
fn task() -> Option<ShortenTask> {
    let mut arguments = std::env::args().skip(1);
    let mut task = ShortenTask {
        program: PathBuf::from(arguments.next()?),
        files: 1000,
        seed: seed_by_the_clock(),
    };
    while let Some(name) = arguments.next() {
        let value = arguments.next()?;
        match name.as_str() {
            "--files" => task.files = value.parse().ok()?,
            "--seed" => task.seed = value.parse().ok()?,
            _ => return None,
        }
    }
    Some(task)
}

/// Says which numbers never were the last refusal, if the comparison was a large
/// one.
fn warn_of_gaps(task: &ShortenTask, tally: &ShortenTally) {
    let missing = NUMBERS
        .iter()
        .filter(|number| !tally.shortened.contains_key(number));
    for number in missing.filter(|_| task.files >= 200) {
        println!("refusal {number} never was the last");
    }
}
