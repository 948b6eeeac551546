//! What becomes of give-ups of both lengths (document 02, Req 07).

use second_model::model::{Answer, Model, Refusal, Step, FULL};
use second_model::records::{given_up_in_four_bytes, given_up_in_two_bytes, pieces};
use std::collections::BTreeSet;

/// Every event that must occur, and how often at the least.
pub const WANTED: [(&str, usize); 32] = [
    ("length 2: accepted", 2_000),
    ("length 2: accepted, above 255", 800),
    ("length 2: accepted, the only one open", 200),
    ("length 2: accepted, 64 open", 40),
    ("length 2: accepted, 64 waiting", 50),
    ("length 2: refused, operation 0", 10),
    ("length 2: refused, finished", 10),
    ("length 2: refused, given up with length 2", 200),
    ("length 2: refused, given up with length 4", 50),
    ("length 2: refused, never begun", 30),
    ("length 2: refused, operation 65,535", 8),
    ("length 4: accepted", 100_000),
    ("length 4: accepted, above 255", 100_000),
    ("length 4: accepted, the only one open", 100),
    ("length 4: accepted, 64 open", 10_000),
    ("length 4: accepted, 64 waiting", 5_000),
    ("length 4: refused, operation 0", 1_000),
    ("length 4: refused, finished", 2_000),
    ("length 4: refused, given up with length 2", 50),
    ("length 4: refused, given up with length 4", 5_000),
    ("length 4: refused, never begun", 5_000),
    ("length 4: refused, operation 65,535", 1_000),
    ("length 4: refused, above 65,535", 300),
    ("length 4: refused, the last one of all", 20),
    ("length 4: refused, its lower bytes are open", 100),
    ("length 4: refused, its upper bytes are open", 40),
    ("length 4: refused, its middle bytes are open", 20),
    ("length 2: a give-up of length 2 follows", 200),
    ("length 2: a give-up of length 4 follows", 100),
    ("length 2: another step follows", 2_000),
    ("length 4: a give-up of length 2 follows", 100),
    ("length 2: the last record", 3),
];

type Events = Vec<&'static str>;

/// The length of a give-up.
#[derive(Clone, Copy, PartialEq, Eq)]
enum Length {
    Two,
    Four,
}

/// The length of the give-up that a record is, if it is one.
fn length_of(piece: &[u8]) -> Option<Length> {
    let two = given_up_in_two_bytes(piece).map(|_| Length::Two);
    two.or(given_up_in_four_bytes(piece).map(|_| Length::Four))
}

/// The operations of a run that are no longer open, and the give-up that the last
/// record was.
#[derive(Default)]
pub struct GiveUps {
    finished: BTreeSet<u32>,
    by_two: BTreeSet<u32>,
    by_four: BTreeSet<u32>,
    last: Option<Length>,
}

/// Of some names those whose condition holds, each for its length.
fn that_hold(length: Length, names: &[(bool, [&'static str; 2])]) -> Events {
    let held = names.iter().filter(|(holds, _)| *holds);
    let name = |names: &[&'static str; 2]| match length {
        Length::Two => names[0],
        Length::Four => names[1],
    };
    held.map(|(_, names)| name(names)).collect()
}

impl GiveUps {
    /// The events that a step, its record and its answer show, and the state
    /// after them.
    pub fn after(&mut self, model: &Model, step: Step, piece: &[u8], answer: Answer) -> Events {
        let length = length_of(piece);
        let mut events = self.following(length);
        self.last = length;
        if let Ok(Some(finished)) = answer {
            self.finished.insert(finished.operation);
        }
        if let (Step::GiveUp { operation }, Some(length)) = (step, length) {
            events.extend(match answer {
                Ok(_) => self.accepted(model, operation, length),
                Err(refusal) => {
                    assert_eq!(refusal, Refusal::NotOpen);
                    self.refused(model, operation, length)
                }
            });
        }
        events
    }

    /// What follows a give-up.
    fn following(&self, length: Option<Length>) -> Events {
        match (self.last, length) {
            (Some(Length::Two), Some(Length::Two)) => {
                vec!["length 2: a give-up of length 2 follows"]
            }
            (Some(Length::Two), Some(Length::Four)) => {
                vec!["length 2: a give-up of length 4 follows"]
            }
            (Some(Length::Two), None) => vec!["length 2: another step follows"],
            (Some(Length::Four), Some(Length::Two)) => {
                vec!["length 4: a give-up of length 2 follows"]
            }
            _ => vec![],
        }
    }

    /// A give-up just accepted.
    fn accepted(&mut self, model: &Model, operation: u32, length: Length) -> Events {
        match length {
            Length::Two => self.by_two.insert(operation),
            Length::Four => self.by_four.insert(operation),
        };
        that_hold(
            length,
            &[
                (true, ["length 2: accepted", "length 4: accepted"]),
                (
                    operation > 255,
                    [
                        "length 2: accepted, above 255",
                        "length 4: accepted, above 255",
                    ],
                ),
                (
                    model.open() == 0,
                    [
                        "length 2: accepted, the only one open",
                        "length 4: accepted, the only one open",
                    ],
                ),
                (
                    model.open() == FULL - 1,
                    ["length 2: accepted, 64 open", "length 4: accepted, 64 open"],
                ),
                (
                    model.waiting() == FULL,
                    [
                        "length 2: accepted, 64 waiting",
                        "length 4: accepted, 64 waiting",
                    ],
                ),
            ],
        )
    }

    /// A give-up just refused.
    fn refused(&self, model: &Model, operation: u32, length: Length) -> Events {
        let far = operation > 65_535;
        let mut events = that_hold(
            length,
            &[
                (
                    operation == 0,
                    [
                        "length 2: refused, operation 0",
                        "length 4: refused, operation 0",
                    ],
                ),
                (
                    self.finished.contains(&operation),
                    ["length 2: refused, finished", "length 4: refused, finished"],
                ),
                (
                    self.by_two.contains(&operation),
                    [
                        "length 2: refused, given up with length 2",
                        "length 4: refused, given up with length 2",
                    ],
                ),
                (
                    self.by_four.contains(&operation),
                    [
                        "length 2: refused, given up with length 4",
                        "length 4: refused, given up with length 4",
                    ],
                ),
                (
                    operation > model.begun() && !far,
                    [
                        "length 2: refused, never begun",
                        "length 4: refused, never begun",
                    ],
                ),
                (
                    operation == 65_535,
                    [
                        "length 2: refused, operation 65,535",
                        "length 4: refused, operation 65,535",
                    ],
                ),
            ],
        );
        let holds = [
            (far, "length 4: refused, above 65,535"),
            (
                operation == u32::MAX,
                "length 4: refused, the last one of all",
            ),
            (
                far && model.is_open(operation & 65_535),
                "length 4: refused, its lower bytes are open",
            ),
            (
                far && model.is_open(operation >> 16),
                "length 4: refused, its upper bytes are open",
            ),
            (
                far && model.is_open(operation >> 8 & 65_535),
                "length 4: refused, its middle bytes are open",
            ),
        ];
        events.extend(holds.into_iter().filter_map(|(h, name)| h.then_some(name)));
        events
    }

    /// The event that the end of a whole file shows.
    pub fn end(&self) -> Option<&'static str> {
        (self.last == Some(Length::Two)).then_some("length 2: the last record")
    }
}

/// What is wrong with a record of tag 10.
#[derive(Clone, Copy, Debug, PartialEq, Eq, PartialOrd, Ord)]
pub enum Fault {
    /// It ends before its length does.
    NoLength,
    /// It has this length, which is neither 2 nor 4.
    Length(usize),
    /// Of this length only so much is there.
    Cut(usize, usize),
}

/// The record of tag 10 with which a run ends as a fault.
pub fn fault(file: &[u8], record: usize) -> Option<Fault> {
    let &[10, ref rest @ ..] = *pieces(file).get(record)? else {
        return None;
    };
    let &[high, low, ref content @ ..] = rest else {
        return Some(Fault::NoLength);
    };
    let length = usize::from(u16::from_be_bytes([high, low]));
    Some(match content.len() < length {
        true => Fault::Cut(length, content.len()),
        false => Fault::Length(length),
    })
}
