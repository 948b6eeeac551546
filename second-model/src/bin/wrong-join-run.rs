//! A run program that is wrong on purpose, to show that `compare` looks at joins:
//! a write that the tail applies to an object already copied does not reach the
//! newcomer.

use second_model::model::{Answer, Model, Packet, Step};
use second_model::run::output_by;
use std::io::{self, Read, Write};

/// A step with the fault put in: the newcomer holds what it held before of an
/// object that may be written.
fn step(model: &mut Model, step: Step) -> Answer {
    let object = written(model, step);
    let held = object.and_then(|object| model.held_by_newcomer(object));
    let answer = model.step(step);
    if let (Some(object), Some(held)) = (object, held) {
        model.falsify_newcomer(object, held);
    }
    answer
}

/// The object of the write that a step brings to a replica, if it does.
fn written(model: &Model, step: Step) -> Option<u16> {
    match step {
        Step::Advance { replica } => Some(model.incoming(replica).next()?.object),
        Step::Deliver { position, .. } => match model.packets().get(usize::from(position))? {
            Packet::StampedWrite { write, .. } => Some(write.object),
            _ => None,
        },
        _ => None,
    }
}

fn main() -> io::Result<()> {
    let mut input = Vec::new();
    io::stdin().lock().read_to_end(&mut input)?;
    io::stdout().write_all(&output_by(&input, step))
}
