//! A run program that is wrong on purpose, to show that `compare` looks at reads
//! of several objects: a replica of a chain answers such a direct read if the first
//! object's stamp is not above the one carried, whatever the others' are.

use second_model::model::{Age, Answer, Few, Held, Model, Packet, Step, Way};
use second_model::run::output_by;
use std::io::{self, Read, Write};

/// A step with the fault put in.
fn step(model: &mut Model, step: Step) -> Answer {
    let wrong = match step {
        Step::Deliver { position, .. } if !model.is_quorum() => wrong_reply(model, position),
        _ => None,
    };
    let answer = model.step(step);
    if let (Some(reply), Ok(_)) = (wrong, answer) {
        model.falsify_newest(reply);
    }
    answer
}

/// What a replica that looks at the first object alone answers, if a direct read
/// stands at this position and is answered.
fn wrong_reply(model: &Model, position: u16) -> Option<Packet> {
    let &Packet::DirectRead {
        to,
        operation,
        objects,
        switch,
        committed,
    } = model.packets().get(usize::from(position))?
    else {
        return None;
    };
    let held: Option<Few<Held>> = objects.each().map(|o| model.held(to, o)).collect();
    let held = held?;
    let first = held.kept().first()?;
    let answers = model.permits(to) == Some(switch) && first.stamp <= committed;
    answers.then_some(Packet::Reply {
        operation,
        values: held.each().map(|held| held.value).collect(),
        carried: None,
        age: Age::None,
        way: Way::Direct,
    })
}

fn main() -> io::Result<()> {
    let mut input = Vec::new();
    io::stdin().lock().read_to_end(&mut input)?;
    io::stdout().write_all(&output_by(&input, step))
}
