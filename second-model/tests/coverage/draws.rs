//! How far drawn runs get (document 02, Req 08): most of their steps are refused,
//! and few operations finish.

use second_model::draw::draw;
use second_model::run::walk;

/// How many runs are drawn of each length.
const RUNS: u32 = 400;

/// What some drawn runs of one length did.
struct Drawn {
    refused: usize,
    finished: usize,
    without: usize,
}

/// Runs of so many steps, of every n in turn.
fn drawn(steps: u64) -> Drawn {
    let mut drawn = Drawn {
        refused: 0,
        finished: 0,
        without: 0,
    };
    for run in 0..RUNS {
        let file = draw(run * 9_999_991, u64::from(run % 8 + 1), steps).unwrap();
        let before = drawn.finished;
        walk(&file, |_, outcome| match outcome {
            Ok(accepted) => drawn.finished += usize::from(accepted.finished.is_some()),
            Err(_) => drawn.refused += 1,
        });
        drawn.without += usize::from(drawn.finished == before);
    }
    drawn
}

/// "At 200 steps hardly any operation finishes, at 1,000 about five, at 7,000 some
/// seventeen."
#[test]
fn few_operations_finish_in_drawn_runs() {
    for (steps, least, most) in [(200, 0.0, 1.0), (1000, 3.0, 8.0), (7000, 12.0, 24.0)] {
        let drawn = drawn(steps);
        let mean = drawn.finished as f64 / f64::from(RUNS);
        let refused = 100.0 * drawn.refused as f64 / (f64::from(RUNS) * steps as f64);
        println!(
            "{steps} steps: {mean:.2} operations finish, {refused:.0} steps of 100 are refused; \
             none finishes in {} of {RUNS} runs",
            drawn.without
        );
        assert!((least..most).contains(&mean), "{steps} steps: {mean}");
        assert!(refused > 50.0, "{steps} steps: {refused}");
    }
}
