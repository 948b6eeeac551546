//! The stack that the header names is enough.

use super::{random_record, whole};
use second_model::generate::{generate, Random, KINDS};
use woldladle::{
    draw, run, shorten, Model, LONGEST_INPUT, LONGEST_LINE, OUTPUT_ROOM, RUN_STACK, SHORTEN_STACK,
};

/// Calls it in a thread with so many bytes of stack.
fn within<T: Send>(stack: usize, call: impl FnOnce() -> T + Send) -> T {
    std::thread::scope(|scope| {
        let thread = std::thread::Builder::new().stack_size(stack);
        let spawned = thread.spawn_scoped(scope, call).expect("a thread");
        spawned.join().expect("an end")
    })
}

#[test]
fn a_run_has_enough() {
    for (kind, _) in KINDS {
        let file = generate(kind, 1, LONGEST_INPUT).expect("a kind");
        let mut out = vec![0; OUTPUT_ROOM];
        let size = within(RUN_STACK, || run(&file, &mut out));
        assert!(out[..size] == whole(&file), "{kind}");
    }
}

#[test]
fn a_shortening_has_enough() {
    let mut input = vec![0; LONGEST_INPUT];
    let mut shortened = 0;
    for seed in 0..20 {
        let size = draw(seed, 3, 200, &mut input).expect("a run");
        let mut out = vec![0; LONGEST_INPUT];
        let answer = within(SHORTEN_STACK, || shorten(&input[..size], &mut out));
        let mut again = vec![0; LONGEST_INPUT];
        assert!(answer == shorten(&input[..size], &mut again) && out == again);
        shortened += usize::from(answer.is_ok());
    }
    assert!(shortened > 5, "{shortened}");
}

/// Beside the 2 KB of a call the thread has 16 KB for itself, the least that the
/// system gives one.
#[test]
fn a_session_has_enough() {
    enough_from(Model::start(3).expect("three"));
    enough_from(Model::start_quorum(7).expect("seven"));
}

fn enough_from(started: Model) {
    let mut random = Random::new(17);
    let mut model = started.clone();
    let mut line = vec![0; LONGEST_LINE];
    let records: Vec<_> = (0..2000)
        .map(|_| {
            let record = random_record(&mut random, &model);
            model.step(&record);
            record
        })
        .collect();
    let ended = within(18 * 1024, || {
        let mut model = started;
        for record in &records {
            model.step(record);
            model.line(2, &mut line);
            model.positions(2);
        }
        model.bytes()
    });
    assert!(ended == model.bytes());
}
