//! A run program that is wrong on purpose, to show that `compare` looks at quorum
//! stores: a replica answers a direct read if no object's stamp is above the one
//! carried, as in a chain, whatever it has executed.

use second_model::model::{Age, Answer, Few, Held, Model, Packet, Step, Way};
use second_model::run::output_by;
use std::io::{self, Read, Write};

/// A step with the fault put in.
fn step(model: &mut Model, step: Step) -> Answer {
    let wrong = match step {
        Step::Deliver { position, .. } if model.is_quorum() => wrong_packet(model, position),
        _ => None,
    };
    let answer = model.step(step);
    if let (Some(packet), Ok(_)) = (wrong, answer) {
        model.falsify_newest(packet);
    }
    answer
}

/// What a replica that looks at the objects' stamps makes of the direct read at this
/// position, if one stands there.
fn wrong_packet(model: &Model, position: u16) -> Option<Packet> {
    let &Packet::DirectRead {
        to,
        operation,
        objects,
        switch,
        committed,
    } = model.packets().get(usize::from(position))?
    else {
        return None;
    };
    let held: Option<Few<Held>> = objects.each().map(|o| model.held(to, o)).collect();
    let held = held?;
    let above = held.each().any(|held| held.stamp > committed);
    let carried = None;
    Some(match model.permits(to) == Some(switch) && !above {
        true => Packet::Reply {
            operation,
            values: held.each().map(|held| held.value).collect(),
            carried,
            age: Age::None,
            way: Way::Direct,
        },
        false => Packet::NormalRead {
            to: 1,
            operation,
            objects,
            carried,
            way: Way::SentOn,
        },
    })
}

fn main() -> io::Result<()> {
    let mut input = Vec::new();
    io::stdin().lock().read_to_end(&mut input)?;
    io::stdout().write_all(&output_by(&input, step))
}
