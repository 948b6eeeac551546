//! `hard-shorten FILE [--seconds T] [--seed S]` looks for a run that takes many
//! steps to shorten and keeps the worst in FILE. If FILE is there already, it
//! climbs from that run.

use second_model::compare::threads::seed_by_the_clock;
use second_model::compare::with_commas;
use second_model::shorten::climb::{beginning, climb, climbed, Climbed};
use std::fs;
use std::path::PathBuf;
use std::process::ExitCode;
use std::time::{Duration, Instant};

/// What is asked for.
struct Task {
    path: PathBuf,
    seconds: u64,
    seed: u64,
}

fn main() -> ExitCode {
    let Some(task) = task() else {
        eprintln!("usage: hard-shorten FILE [--seconds T] [--seed S]");
        return ExitCode::from(2);
    };
    println!("seed {}", task.seed);
    let from = match fs::read(&task.path) {
        Ok(file) => climbed(file),
        Err(_) => beginning(task.seed),
    };
    let Some(from) = from else {
        eprintln!("hard-shorten: {}: not shortened", task.path.display());
        return ExitCode::FAILURE;
    };
    show("from", &from);
    let time = Duration::from_secs(task.seconds);
    let worst = climb(from, task.seed, time, |worse| show("worse", worse));
    let begun = Instant::now();
    let again = climbed(worst.file.clone());
    let taken = begun.elapsed().as_millis();
    show("worst", &worst);
    println!("it takes {taken} ms here");
    match fs::write(&task.path, &worst.file) {
        Ok(()) if again.is_some() => ExitCode::SUCCESS,
        _ => ExitCode::FAILURE,
    }
}

fn show(name: &str, run: &Climbed) {
    let (trials, steps) = (with_commas(run.work.trials), with_commas(run.work.steps));
    let passes = run.work.passes;
    println!("{name}: {passes} passes, {trials} trials, {steps} steps");
}

/// The task that the arguments give; the seed is by the clock if not named.
fn task() -> Option<Task> {
    let mut arguments = std::env::args().skip(1);
    let mut task = Task {
        path: PathBuf::from(arguments.next()?),
        seconds: 60,
        seed: seed_by_the_clock(),
    };
    while let Some(name) = arguments.next() {
        let value = arguments.next()?;
        match name.as_str() {
            "--seconds" => task.seconds = value.parse().ok()?,
            "--seed" => task.seed = value.parse().ok()?,
            _ => return None,
        }
    }
    Some(task)
}
