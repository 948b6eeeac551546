//! What becomes of reads of a context (document 02, Req 02).

use second_model::model::{
    Answer, Finished, Model, Objects, Packet, Refusal, Stamp, Step, Values, Way, FULL,
};
use second_model::records::pieces;
use std::collections::{BTreeMap, BTreeSet};

/// Every event that must occur, and how often at the least.
pub const WANTED: [(&str, usize); 73] = [
    ("begin: 2 objects", 5_000),
    ("begin: 3 objects", 2_000),
    ("begin: 4 objects", 2_000),
    ("begin: 5 objects", 2_000),
    ("begin: 6 objects", 1_000),
    ("begin: 7 objects", 1_000),
    ("begin: 8 objects", 1_000),
    ("begin: objects not in rising order", 10_000),
    ("begin: another context is open", 20_000),
    ("refused: object above", 100),
    ("refused: object above and one named twice", 50),
    ("refused: object above named twice", 20),
    ("refused: object above, 64 open", 200),
    ("refused: object above, 64 waiting", 10),
    ("refused: named twice", 100),
    ("refused: named twice, 64 open", 100),
    ("refused: named twice, 64 waiting", 8),
    ("refused: named twice, 64 open, 64 waiting", 5),
    ("refused: 64 open", 2_000),
    ("refused: 64 open, 64 waiting", 500),
    ("refused: 64 waiting", 2_000),
    ("switch: direct to the head", 1_000),
    ("switch: direct to one between", 1_000),
    ("switch: direct to the tail", 1_000),
    ("switch: direct to the lone replica", 5_000),
    ("switch: direct, a mark is overtaken", 20),
    ("switch: direct reads off, no mark", 2_000),
    ("switch: direct reads off, a mark", 1_000),
    ("switch: only the first marked", 1_000),
    ("switch: only one between marked", 1_000),
    ("switch: only the last marked", 1_000),
    ("switch: several marked", 1_000),
    ("switch: all marked", 1_000),
    ("direct: gone", 50),
    ("direct: answered", 5_000),
    ("direct: answered, a stamp is the one carried", 2_000),
    ("direct: answered, below the replica's highest", 1_000),
    ("direct: answered, switch replaced meanwhile", 50),
    ("direct: answered, a mark has come meanwhile", 200),
    ("direct: other switch", 200),
    ("direct: other switch and a stamp above", 100),
    ("direct: only the first above", 500),
    ("direct: only one between above", 500),
    ("direct: only the last above", 400),
    ("direct: several above", 50),
    ("normal: gone, sent at once", 100),
    ("normal: gone, sent on", 9),
    ("normal: answered, sent at once", 10_000),
    ("normal: answered, sent on", 2_000),
    ("answer: unlike another copy's", 200),
    ("answer: two values and not in rising order", 10_000),
    ("answer: eight values, none 0", 200),
    ("finished: direct", 2_000),
    ("finished: tail", 5_000),
    ("finished: sent on", 1_000),
    ("finished: copies were answered unlike", 50),
    ("ignored: finished before", 2_000),
    ("ignored: finished before with other values", 200),
    ("ignored: given up", 5_000),
    ("repeated: to the switch", 1_000),
    ("repeated: direct", 1_000),
    ("repeated: normal", 1_000),
    ("repeated: answer", 1_000),
    ("repeated: full", 1_000),
    ("lost: to the switch", 1_000),
    ("lost: direct", 1_000),
    ("lost: normal", 1_000),
    ("lost: answer", 1_000),
    ("given up: a context", 5_000),
    ("removed: a direct context waits for it", 20),
    ("removed: a normal context waits for it", 20),
    ("delivered: 60 packets of contexts wait", 5_000),
    ("delivered: with 64 waiting", 4_000),
];

type Events = Vec<&'static str>;

/// The contexts of a run so far.
#[derive(Default)]
pub struct Contexts {
    begun: BTreeSet<u32>,
    answers: BTreeMap<u32, Values>,
    unlike: BTreeSet<u32>,
    finished: BTreeMap<u32, Values>,
    delivered: Option<Packet>,
}

/// The operation of a packet of a context.
fn operation_of(packet: &Packet) -> Option<u32> {
    let (operation, count) = match *packet {
        Packet::Read { operation, objects }
        | Packet::DirectRead {
            operation, objects, ..
        }
        | Packet::NormalRead {
            operation, objects, ..
        } => (operation, objects.count()),
        Packet::Reply {
            operation, values, ..
        } => (operation, values.count()),
        _ => return None,
    };
    (count > 1).then_some(operation)
}

/// Is this replica live and not the tail? Then it sends a normal read on.
fn former_tail(model: &Model, name: u8) -> bool {
    model.permits(name).is_some() && model.live().last() != Some(name)
}

/// The places of the objects of which something holds.
fn places(objects: Objects, holds: impl Fn(u16) -> bool) -> Vec<usize> {
    let each = objects.each().enumerate();
    each.filter(|&(_, o)| holds(o)).map(|(p, _)| p).collect()
}

/// The place that alone has it, in words: first, between, last, several.
fn where_alone(places: &[usize], count: usize, names: [&'static str; 4]) -> &'static str {
    match places {
        [0] => names[0],
        [only] if only + 1 == count => names[2],
        [_] => names[1],
        _ => names[3],
    }
}

impl Contexts {
    /// The events that the state before a step shows.
    pub fn before(&mut self, model: &Model, step: Step) -> Events {
        let packet = |position: u16| {
            let packet = model.packets().get(usize::from(position)).copied();
            packet.filter(|p| operation_of(p).is_some())
        };
        self.delivered = None;
        match step {
            Step::Deliver { position, .. } => {
                self.delivered = packet(position);
                self.delivering(model)
            }
            Step::Repeat { position } => packet(position).map_or(vec![], |p| repeating(model, &p)),
            Step::Lose { position } => match packet(position) {
                Some(packet) => vec![of_sort(
                    &packet,
                    [
                        "lost: to the switch",
                        "lost: direct",
                        "lost: normal",
                        "lost: answer",
                    ],
                )],
                None => vec![],
            },
            Step::GiveUp { operation } if self.begun.contains(&operation) => {
                match model.is_open(operation) {
                    true => vec!["given up: a context"],
                    false => vec![],
                }
            }
            Step::Remove { replica } if model.live().len() > 1 => removing(model, replica),
            _ => vec![],
        }
    }

    /// A packet of a context about to be delivered.
    fn delivering(&mut self, model: &Model) -> Events {
        let mut events = match self.delivered {
            Some(Packet::Read { objects, .. }) => at_switch(model, objects),
            Some(Packet::DirectRead {
                to,
                objects,
                switch,
                committed,
                ..
            }) => direct(model, to, objects, switch, committed),
            Some(Packet::NormalRead { to, .. }) if former_tail(model, to) => vec![],
            Some(Packet::NormalRead { to, way, .. }) => vec![match (model.permits(to), way) {
                (None, Way::SentOn) => "normal: gone, sent on",
                (None, _) => "normal: gone, sent at once",
                (Some(_), Way::SentOn) => "normal: answered, sent on",
                (Some(_), _) => "normal: answered, sent at once",
            }],
            Some(_) => vec![],
            None => return vec![],
        };
        if model.waiting() == FULL {
            events.push("delivered: with 64 waiting");
        }
        let ours = |p: &&Packet| operation_of(p).is_some();
        if model.waiting() >= 60 && model.packets().iter().filter(ours).count() >= 60 {
            events.push("delivered: 60 packets of contexts wait");
        }
        events
    }

    /// The events that the state after a step and its answer show.
    pub fn after(&mut self, model: &Model, step: Step, answer: Answer) -> Events {
        if let Step::Context { objects } = step {
            return self.beginning(model, objects, answer);
        }
        let Some(delivered) = self.delivered else {
            return vec![];
        };
        if let Packet::Reply {
            operation, values, ..
        } = delivered
        {
            return vec![self.replied(operation, values, answer)];
        }
        match (delivered, model.packets().last()) {
            (Packet::DirectRead { .. } | Packet::NormalRead { .. }, Some(newest)) => {
                self.answering(delivered, newest)
            }
            _ => vec![],
        }
    }

    /// A context begun or refused.
    fn beginning(&mut self, model: &Model, objects: Objects, answer: Answer) -> Events {
        let (open, full) = (model.open() == FULL, model.waiting() == FULL);
        let named = objects.each().collect::<BTreeSet<_>>().len() < objects.count();
        let name = match answer {
            Ok(_) => return self.begun(model, objects),
            Err(Refusal::BadObject) if open => "refused: object above, 64 open",
            Err(Refusal::BadObject) if full => "refused: object above, 64 waiting",
            Err(Refusal::BadObject) if named => {
                let below: Vec<u16> = objects.each().filter(|&o| o < 1024).collect();
                let different: BTreeSet<u16> = below.iter().copied().collect();
                match different.len() < below.len() {
                    true => "refused: object above and one named twice",
                    false => "refused: object above named twice",
                }
            }
            Err(Refusal::BadObject) => "refused: object above",
            Err(Refusal::NamedTwice) => match (open, full) {
                (true, true) => "refused: named twice, 64 open, 64 waiting",
                (true, false) => "refused: named twice, 64 open",
                (false, true) => "refused: named twice, 64 waiting",
                (false, false) => "refused: named twice",
            },
            Err(Refusal::TooManyOpen) if full => "refused: 64 open, 64 waiting",
            Err(Refusal::TooManyOpen) => "refused: 64 open",
            Err(Refusal::TooManyWaiting) => "refused: 64 waiting",
            Err(other) => panic!("a context refused with {other:?}"),
        };
        vec![name]
    }

    fn begun(&mut self, model: &Model, objects: Objects) -> Events {
        let mut events = vec![match objects.count() {
            2 => "begin: 2 objects",
            3 => "begin: 3 objects",
            4 => "begin: 4 objects",
            5 => "begin: 5 objects",
            6 => "begin: 6 objects",
            7 => "begin: 7 objects",
            8 => "begin: 8 objects",
            other => panic!("a context of {other} objects begun"),
        }];
        if !objects.kept().is_sorted() {
            events.push("begin: objects not in rising order");
        }
        if self
            .begun
            .iter()
            .rev()
            .take(FULL)
            .any(|&o| model.is_open(o))
        {
            events.push("begin: another context is open");
        }
        self.begun.insert(model.begun());
        events
    }

    /// A direct or normal read delivered, and the newest packet after that.
    fn answering(&mut self, delivered: Packet, newest: &Packet) -> Events {
        let &Packet::Reply {
            operation, values, ..
        } = newest
        else {
            return vec![];
        };
        if operation_of(&delivered) != Some(operation) {
            return vec![];
        }
        let mut events = vec![];
        let other = self.answers.insert(operation, values);
        if other.is_some_and(|other| other != values) {
            self.unlike.insert(operation);
            events.push("answer: unlike another copy's");
        }
        let written: Vec<u32> = values.each().filter(|&v| v != 0).collect();
        if written.len() > 1 && !written.is_sorted() {
            events.push("answer: two values and not in rising order");
        }
        if written.len() == 8 {
            events.push("answer: eight values, none 0");
        }
        events
    }

    /// The reply of a context delivered.
    fn replied(&mut self, operation: u32, values: Values, answer: Answer) -> &'static str {
        let finished: Option<Finished> = answer.expect("a reply is not refused");
        let Some(finished) = finished else {
            return match self.finished.get(&operation) {
                Some(earlier) if *earlier == values => "ignored: finished before",
                Some(_) => "ignored: finished before with other values",
                None => "ignored: given up",
            };
        };
        self.finished.insert(operation, values);
        if self.unlike.contains(&operation) {
            return "finished: copies were answered unlike";
        }
        match finished.way {
            Way::Direct => "finished: direct",
            Way::Tail => "finished: tail",
            Way::SentOn => "finished: sent on",
            Way::Write => panic!("a context finished by a write"),
        }
    }
}

/// One of four names, by the sort of a packet of a context.
fn of_sort(packet: &Packet, names: [&'static str; 4]) -> &'static str {
    match packet {
        Packet::Read { .. } => names[0],
        Packet::DirectRead { .. } => names[1],
        Packet::NormalRead { .. } => names[2],
        _ => names[3],
    }
}

fn repeating(model: &Model, packet: &Packet) -> Events {
    let names = [
        "repeated: to the switch",
        "repeated: direct",
        "repeated: normal",
        "repeated: answer",
    ];
    match model.waiting() {
        FULL => vec!["repeated: full"],
        _ => vec![of_sort(packet, names)],
    }
}

/// A live replica about to be removed.
fn removing(model: &Model, replica: u8) -> Events {
    let mut events = vec![];
    if model.permits(replica).is_none() {
        return events;
    }
    let waits = |direct: bool| {
        model.packets().iter().any(|p| match *p {
            Packet::DirectRead { to, objects, .. } => {
                direct && to == replica && objects.is_context()
            }
            Packet::NormalRead { to, objects, .. } => {
                !direct && to == replica && objects.is_context()
            }
            _ => false,
        })
    };
    if waits(true) {
        events.push("removed: a direct context waits for it");
    }
    if waits(false) {
        events.push("removed: a normal context waits for it");
    }
    events
}

/// A context at the switch.
fn at_switch(model: &Model, objects: Objects) -> Events {
    let marked = places(objects, |o| model.counting_mark(o).is_some());
    let names = [
        "switch: only the first marked",
        "switch: only one between marked",
        "switch: only the last marked",
        "switch: several marked",
    ];
    vec![match (model.direct_reads(), marked.len()) {
        (false, 0) => "switch: direct reads off, no mark",
        (false, _) => "switch: direct reads off, a mark",
        (true, 0) if objects.each().any(|o| overtaken(model, o)) => {
            "switch: direct, a mark is overtaken"
        }
        (true, 0) => return vec![],
        (true, count) if count == objects.count() => "switch: all marked",
        (true, _) => where_alone(&marked, objects.count(), names),
    }]
}

/// Where the switch sent a direct read of a context, by the newest packet.
pub fn sent(model: &Model) -> Option<&'static str> {
    let &Packet::DirectRead { to, objects, .. } = model.packets().last()? else {
        return None;
    };
    if !objects.is_context() {
        return None;
    }
    let live: Vec<u8> = model.live().collect();
    Some(match live.iter().position(|&r| r == to)? {
        _ if live.len() == 1 => "switch: direct to the lone replica",
        0 => "switch: direct to the head",
        place if place + 1 == live.len() => "switch: direct to the tail",
        _ => "switch: direct to one between",
    })
}

/// Is a write of an object by the present switch under way, though the object
/// has no counting mark?
fn overtaken(model: &Model, object: u16) -> bool {
    let waiting = model.packets().iter().filter_map(|p| match p {
        Packet::StampedWrite { write, .. } => Some(*write),
        _ => None,
    });
    let mut writes = waiting.chain(model.live().flat_map(|r| model.incoming(r)));
    let now = model.switch_number();
    let ours = writes.any(|w| w.object == object && w.stamp.switch() == now);
    ours && model.counting_mark(object).is_none()
}

/// A direct read of a context at a replica.
fn direct(model: &Model, to: u8, objects: Objects, switch: u16, committed: Stamp) -> Events {
    let Some(permitted) = model.permits(to) else {
        return vec!["direct: gone"];
    };
    let stamp = |object| model.held(to, object).map_or(Stamp::ZERO, |h| h.stamp);
    let above = places(objects, |o| stamp(o) > committed);
    let names = [
        "direct: only the first above",
        "direct: only one between above",
        "direct: only the last above",
        "direct: several above",
    ];
    match (permitted == switch, above.is_empty()) {
        (false, true) => return vec!["direct: other switch"],
        (false, false) => return vec!["direct: other switch and a stamp above"],
        (true, false) => return vec![where_alone(&above, objects.count(), names)],
        (true, true) => {}
    }
    let mut events = vec!["direct: answered"];
    let holds = [
        (
            objects.each().any(|o| stamp(o) == committed),
            "direct: answered, a stamp is the one carried",
        ),
        (
            (0..1024).any(|o| stamp(o) > committed),
            "direct: answered, below the replica's highest",
        ),
        (
            switch != model.switch_number(),
            "direct: answered, switch replaced meanwhile",
        ),
        (
            objects.each().any(|o| model.counting_mark(o).is_some()),
            "direct: answered, a mark has come meanwhile",
        ),
    ];
    events.extend(holds.into_iter().filter_map(|(h, name)| h.then_some(name)));
    events
}

/// The record of tag 11 with which a run ends as a fault, by its stated length
/// and whether its content is all there.
pub fn fault(file: &[u8], record: usize) -> Option<(usize, bool)> {
    match pieces(file).get(record)? {
        [11, high, low, content @ ..] => {
            let length = usize::from(u16::from_be_bytes([*high, *low]));
            Some((length, content.len() == length))
        }
        _ => None,
    }
}
