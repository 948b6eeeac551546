//! `compare PROGRAM [--files N] [--seed S] [--small M] [--keep DIR]`: compares
//! what PROGRAM prints with what this model prints, on random files.

use second_model::compare::threads::{on_two_threads, seed_by_the_clock};
use second_model::compare::{compare_one, reachable, Tally, Task};
use std::io;
use std::path::PathBuf;
use std::process::ExitCode;

fn main() -> ExitCode {
    let Some(task) = task() else {
        eprintln!("usage: compare PROGRAM [--files N] [--seed S] [--small M] [--keep DIR]");
        return ExitCode::from(2);
    };
    println!("seed {}", task.seed);
    match compare(&task) {
        Ok((tally, None)) => {
            print!("{}", tally.report());
            warn_of_gaps(&task, &tally);
            ExitCode::SUCCESS
        }
        Ok((_, Some(difference))) => {
            println!("{difference}");
            ExitCode::FAILURE
        }
        Err(error) => {
            eprintln!("compare: {}: {error}", task.program.display());
            ExitCode::from(2)
        }
    }
}

/// The task that the arguments give; the seed is by the clock if not named.
fn task() -> Option<Task> {
    let mut arguments = std::env::args().skip(1);
    let mut task = Task {
        program: PathBuf::from(arguments.next()?),
        files: 2600,
        small: 680,
        seed: seed_by_the_clock(),
        keep: std::env::temp_dir(),
    };
    while let Some(name) = arguments.next() {
        let value = arguments.next()?;
        match name.as_str() {
            "--files" => task.files = value.parse().ok()?,
            "--seed" => task.seed = value.parse().ok()?,
            "--small" => task.small = value.parse().ok()?,
            "--keep" => task.keep = PathBuf::from(value),
            _ => return None,
        }
    }
    Some(task)
}

/// Compares all files; stops at the first difference.
fn compare(task: &Task) -> io::Result<(Tally, Option<String>)> {
    let all = task.files + task.small;
    let (tallies, difference) = on_two_threads(all, |index, path, tally| {
        compare_one(task, index, path, tally)
    })?;
    let mut total = Tally::default();
    tallies.iter().for_each(|tally| total.add(tally));
    Ok((total, difference))
}

/// Says which answers never occurred, if the comparison was a large one.
fn warn_of_gaps(task: &Task, tally: &Tally) {
    if task.files < 1000 {
        return;
    }
    for number in reachable().filter(|&number| tally.refusals[number] == 0) {
        println!("refusal {number} never occurred");
    }
    let ages = [("old", tally.old), ("new", tally.new)];
    for (word, times) in ages.into_iter().chain(tally.rows()) {
        if times == 0 {
            println!("{word} never occurred");
        }
    }
}
