//! `compare-draws DRAW RUN [--draws N] [--seed S]`: compares what DRAW writes for
//! some seeds with what this model draws, and the lines that RUN prints for the
//! longer drawn runs.

use second_model::compare::draws::{compare_draw, DrawTally, DrawTask};
use second_model::compare::threads::{on_two_threads, seed_by_the_clock};
use std::path::PathBuf;
use std::process::ExitCode;

fn main() -> ExitCode {
    let Some(task) = task() else {
        eprintln!("usage: compare-draws DRAW RUN [--draws N] [--seed S]");
        return ExitCode::from(2);
    };
    println!("seed {}", task.seed);
    let compared = on_two_threads(task.draws, |index, path, tally| {
        compare_draw(&task, index, path, tally)
    });
    match compared {
        Ok((tallies, None)) => {
            let mut total = DrawTally::default();
            tallies.iter().for_each(|tally| total.add(tally));
            print!("{}", total.report());
            ExitCode::SUCCESS
        }
        Ok((_, Some(difference))) => {
            println!("difference on {difference}");
            ExitCode::FAILURE
        }
        Err(error) => {
            let (draw, run) = (task.draw.display(), task.run.display());
            eprintln!("compare-draws: {draw} or {run}: {error}");
            ExitCode::from(2)
        }
    }
}

/// The task that the arguments give; the seed is by the clock if not named.
fn task() -> Option<DrawTask> {
    let mut arguments = std::env::args().skip(1);
    let mut task = DrawTask {
        draw: PathBuf::from(arguments.next()?),
        run: PathBuf::from(arguments.next()?),
        draws: 10_000,
        seed: seed_by_the_clock(),
    };
    while let Some(name) = arguments.next() {
        let value = arguments.next()?;
        match name.as_str() {
            "--draws" => task.draws = value.parse().ok()?,
            "--seed" => task.seed = value.parse().ok()?,
            _ => return None,
        }
    }
    Some(task)
}
