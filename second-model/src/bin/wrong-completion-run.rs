//! A run program that is wrong on purpose, to show that `compare` looks at former
//! switches' completions: each turns direct reads on (Req 10 left out).

use second_model::model::{Answer, Model, Packet, Step};
use second_model::run::output_by;
use std::io::{self, Read, Write};

/// A step with the fault put in.
fn step(model: &mut Model, step: Step) -> Answer {
    let completes = is_completion(model, step);
    let answer = model.step(step);
    if completes && answer.is_ok() {
        model.falsify_direct_reads();
    }
    answer
}

/// Does a step deliver a completion?
fn is_completion(model: &Model, step: Step) -> bool {
    let Step::Deliver { position, .. } = step else {
        return false;
    };
    let packet = model.packets().get(usize::from(position));
    matches!(packet, Some(Packet::Completion { .. }))
}

fn main() -> io::Result<()> {
    let mut input = Vec::new();
    io::stdin().lock().read_to_end(&mut input)?;
    io::stdout().write_all(&output_by(&input, step))
}
