//! What becomes of joins, of the writes meanwhile and of the reads that meet a
//! former tail (document 02, Req 04).

use second_model::model::{Answer, Model, Packet, Refusal, Stamp, Step, FULL};
use second_model::records::pieces;
use std::collections::BTreeSet;

/// Every event that must occur, and how often at the least.
pub const WANTED: [(&str, usize); 53] = [
    ("join: begun, one live", 500),
    ("join: begun, seven live", 500),
    ("join: begun, writes in the links", 800),
    ("join: begun with 64 waiting", 200),
    ("join: begun after one that was ended", 500),
    ("join: begun after a whole one", 2_000),
    ("join: number 255 given to the newcomer", 3),
    ("join: refused, eight live", 300),
    ("join: refused, number 255 given", 300),
    ("join: refused, number 255 under way", 2),
    ("join: refused, one under way", 500),
    ("copy: refused, none ever", 20),
    ("copy: refused, the join is whole", 1_000),
    ("copy: refused, the join was ended", 40),
    ("copy: some object was written", 10_000),
    ("copy: no object was written", 20_000),
    ("copy: with 64 waiting", 2_000),
    ("last copy: one live before", 800),
    ("last copy: seven live before", 500),
    ("last copy: writes in the old tail's link", 300),
    ("last copy: switch replaced meanwhile", 100),
    ("last copy: tail permits an older switch", 100),
    (
        "last copy: the tail has heard of a new switch meanwhile",
        80,
    ),
    ("last copy: a head or middle was removed meanwhile", 500),
    ("last copy: a write was heard of", 500),
    ("last copy: a normal read waits for the old tail", 1_000),
    ("write: the tail applies, copied", 1_000),
    ("write: the tail applies, not copied", 1_000),
    ("write: the tail applies, at the end of what is copied", 40),
    ("write: a lone replica applies, copied", 500),
    ("write: a lone replica applies, not copied", 500),
    ("write: one before the tail applies, copied", 2_000),
    ("write: refused at the tail for 64 waiting", 200),
    ("removed: the head", 500),
    ("removed: the head of two", 300),
    ("removed: one between", 300),
    ("removed: the tail, nothing copied", 40),
    ("removed: the tail, some copied", 500),
    ("removed: the tail with writes in its link", 80),
    ("removed: refused, the lone replica", 150),
    ("removed: refused, the newcomer", 100),
    ("told: refused, the newcomer", 100),
    ("advanced: refused, the newcomer", 150),
    ("switch: replaced", 150),
    ("former tail: a normal read is sent on", 3_000),
    ("former tail: with a stamp", 2_000),
    ("former tail: of several objects", 300),
    ("former tail: with 64 waiting", 500),
    ("former tail: gone", 1_000),
    ("former tail: tail again", 200),
    ("joined: answers a normal read sent on", 1_000),
    ("joined: answers a direct read", 5_000),
    ("joined: sends a direct read on", 1_000),
];

type Events = Vec<&'static str>;

/// The joins of a run so far. `last` says how the one before ended.
#[derive(Default)]
pub struct Joins {
    joined: BTreeSet<u8>,
    last: Option<End>,
    sent_on: BTreeSet<(u32, u8)>,
    former: BTreeSet<(u32, u8)>,
    under_way: Meanwhile,
}

/// How a join ended.
#[derive(Clone, Copy, PartialEq, Eq)]
enum End {
    Whole,
    Removed,
}

/// What has happened since a join began.
#[derive(Default)]
struct Meanwhile {
    replaced: bool,
    told: bool,
    removed: bool,
    heard: bool,
}

/// Of some names those whose condition holds.
fn that_hold(names: &[(bool, &'static str)]) -> Events {
    let held = names.iter().filter(|(holds, _)| *holds);
    held.map(|(_, name)| *name).collect()
}

impl Joins {
    /// The events that the state before a step shows.
    pub fn before(&mut self, model: &Model, step: Step) -> Events {
        let tail = model.live().last();
        let joining = model.newcomer().is_some();
        match step {
            Step::Join => self.joining(model),
            Step::Copy => self.copying(model),
            Step::Deliver { position, .. } => {
                match model.packets().get(usize::from(position)).copied() {
                    Some(Packet::StampedWrite { to, write }) if joining => {
                        self.write(model, to, write.object, Some(write.stamp))
                    }
                    Some(packet) => self.read(model, packet),
                    None => vec![],
                }
            }
            Step::Advance { replica } if joining => match model.incoming(replica).next() {
                Some(write) => self.write(model, replica, write.object, None),
                None if model.newcomer() == Some(replica) => {
                    vec!["advanced: refused, the newcomer"]
                }
                None => vec![],
            },
            Step::Tell { replica } if joining => {
                self.under_way.told |= tail == Some(replica);
                match model.newcomer() == Some(replica) {
                    true => vec!["told: refused, the newcomer"],
                    false => vec![],
                }
            }
            Step::Remove { replica } if joining => self.removing(model, replica),
            Step::Replace { switch } if joining && switch > model.switch_number() => {
                self.under_way.replaced = true;
                vec!["switch: replaced"]
            }
            _ => vec![],
        }
    }

    /// A join about to begin or to be refused.
    fn joining(&mut self, model: &Model) -> Events {
        let live = model.live().len();
        match (live, model.given(), model.newcomer()) {
            (8, _, _) => return vec!["join: refused, eight live"],
            (_, 255, None) => return vec!["join: refused, number 255 given"],
            (_, 255, Some(_)) => return vec!["join: refused, number 255 under way"],
            (_, _, Some(_)) => return vec!["join: refused, one under way"],
            _ => self.under_way = Meanwhile::default(),
        }
        that_hold(&[
            (live == 1, "join: begun, one live"),
            (live == 7, "join: begun, seven live"),
            (model.linked() > 0, "join: begun, writes in the links"),
            (model.waiting() == FULL, "join: begun with 64 waiting"),
            (
                self.last == Some(End::Removed),
                "join: begun after one that was ended",
            ),
            (
                self.last == Some(End::Whole),
                "join: begun after a whole one",
            ),
            (
                model.given() == 254,
                "join: number 255 given to the newcomer",
            ),
        ])
    }

    /// A copy about to be made or refused.
    fn copying(&mut self, model: &Model) -> Events {
        let (Some(newcomer), Some(tail)) = (model.newcomer(), model.live().last()) else {
            return vec![match self.last {
                None => "copy: refused, none ever",
                Some(End::Whole) => "copy: refused, the join is whole",
                Some(End::Removed) => "copy: refused, the join was ended",
            }];
        };
        let first = model.copied();
        let stamp = |object| model.held(tail, object).map(|held| held.stamp);
        let written = (first..first + 64).any(|o| stamp(o) > Some(Stamp::ZERO));
        let mut events = that_hold(&[
            (written, "copy: some object was written"),
            (!written, "copy: no object was written"),
            (model.waiting() == FULL, "copy: with 64 waiting"),
        ]);
        if first == 960 {
            events.extend(self.last_copy(model, tail));
            self.joined.insert(newcomer);
            self.last = Some(End::Whole);
        }
        events
    }

    fn last_copy(&self, model: &Model, tail: u8) -> Events {
        let live = model.live().len();
        let waits = |p: &Packet| matches!(*p, Packet::NormalRead { to, .. } if to == tail);
        let older = model.permits(tail) < Some(model.switch_number());
        let Meanwhile {
            replaced,
            told,
            removed,
            heard,
        } = self.under_way;
        that_hold(&[
            (live == 1, "last copy: one live before"),
            (live == 7, "last copy: seven live before"),
            (
                model.incoming(tail).len() > 0,
                "last copy: writes in the old tail's link",
            ),
            (replaced, "last copy: switch replaced meanwhile"),
            (older, "last copy: tail permits an older switch"),
            (
                replaced && told,
                "last copy: the tail has heard of a new switch meanwhile",
            ),
            (removed, "last copy: a head or middle was removed meanwhile"),
            (heard, "last copy: a write was heard of"),
            (
                model.packets().iter().any(waits),
                "last copy: a normal read waits for the old tail",
            ),
        ])
    }

    /// A write about to be applied during a join: one that arrives with this
    /// stamp, or comes out of a link.
    fn write(&mut self, model: &Model, to: u8, object: u16, arriving: Option<Stamp>) -> Events {
        let Some(place) = model.live().position(|name| name == to) else {
            return vec![];
        };
        let held = (0..1024).filter_map(|o| model.held(to, o));
        let low = arriving.is_some_and(|stamp| held.map(|h| h.stamp).max() >= Some(stamp));
        if low || (arriving.is_some() && model.linked() >= FULL) {
            return vec![];
        }
        let copied = object < model.copied();
        if place + 1 < model.live().len() {
            return that_hold(&[(copied, "write: one before the tail applies, copied")]);
        }
        if model.waiting() + 2 > FULL + usize::from(arriving.is_some()) {
            return vec!["write: refused at the tail for 64 waiting"];
        }
        self.under_way.heard |= copied;
        let lone = model.live().len() == 1;
        let end = object == model.copied() || object + 1 == model.copied();
        that_hold(&[
            (copied, "write: the tail applies, copied"),
            (!copied, "write: the tail applies, not copied"),
            (end, "write: the tail applies, at the end of what is copied"),
            (lone && copied, "write: a lone replica applies, copied"),
            (lone && !copied, "write: a lone replica applies, not copied"),
        ])
    }

    /// A removal during a join.
    fn removing(&mut self, model: &Model, replica: u8) -> Events {
        let live = model.live().len();
        let Some(place) = model.live().position(|name| name == replica) else {
            let newcomer = model.newcomer() == Some(replica);
            return that_hold(&[(newcomer, "removed: refused, the newcomer")]);
        };
        if live == 1 {
            return vec!["removed: refused, the lone replica"];
        }
        if place + 1 < live {
            self.under_way.removed = true;
            return that_hold(&[
                (place == 0, "removed: the head"),
                (place == 0 && live == 2, "removed: the head of two"),
                (place > 0, "removed: one between"),
            ]);
        }
        self.last = Some(End::Removed);
        that_hold(&[
            (model.copied() == 0, "removed: the tail, nothing copied"),
            (model.copied() > 0, "removed: the tail, some copied"),
            (
                model.incoming(replica).len() > 0,
                "removed: the tail with writes in its link",
            ),
        ])
    }

    /// A read about to be delivered to a replica.
    fn read(&mut self, model: &Model, packet: Packet) -> Events {
        let tail = model.live().last();
        match packet {
            Packet::NormalRead {
                to,
                operation,
                objects,
                carried,
                ..
            } => {
                let former = self.former.contains(&(operation, to));
                if model.permits(to).is_none() {
                    return that_hold(&[(former, "former tail: gone")]);
                }
                if tail == Some(to) {
                    let sent_on = self.sent_on.contains(&(operation, to));
                    return that_hold(&[
                        (former, "former tail: tail again"),
                        (sent_on, "joined: answers a normal read sent on"),
                    ]);
                }
                self.sent_on.extend(tail.map(|tail| (operation, tail)));
                that_hold(&[
                    (true, "former tail: a normal read is sent on"),
                    (carried.is_some(), "former tail: with a stamp"),
                    (objects.is_context(), "former tail: of several objects"),
                    (model.waiting() == FULL, "former tail: with 64 waiting"),
                ])
            }
            Packet::DirectRead {
                to,
                objects,
                switch,
                committed,
                ..
            } if self.joined.contains(&to) && model.permits(to).is_some() => {
                let held = objects.each().filter_map(|o| model.held(to, o));
                let above = held.into_iter().any(|held| held.stamp > committed);
                let answers = model.permits(to) == Some(switch) && !above;
                that_hold(&[
                    (answers, "joined: answers a direct read"),
                    (!answers, "joined: sends a direct read on"),
                ])
            }
            _ => vec![],
        }
    }

    /// Looks at the state after a step: the normal reads that wait for a former
    /// tail now, and whether a refusal is the one that was expected.
    pub fn after(&mut self, model: &Model, step: Step, answer: Answer) {
        match (step, answer) {
            (Step::Copy, Ok(_)) if model.newcomer().is_none() => {
                let tail = model.live().last();
                let former = model.packets().iter().filter_map(|p| match *p {
                    Packet::NormalRead { to, operation, .. } => Some((operation, to)),
                    _ => None,
                });
                let live = |name| model.permits(name).is_some();
                self.former
                    .extend(former.filter(|&(_, to)| live(to) && tail != Some(to)));
            }
            (Step::Join, Err(refusal)) => assert!(matches!(
                refusal,
                Refusal::NoNewcomer | Refusal::JoinUnderWay
            )),
            (Step::Copy, Err(refusal)) => assert_eq!(refusal, Refusal::NoJoin),
            _ => {}
        }
    }
}

/// The record of tag 12, 13 or 14 with which a run ends as a fault, by its tag
/// and what is wrong with it.
pub fn fault(file: &[u8], record: usize) -> Option<(u8, &'static str)> {
    let &[tag @ 12..=14, ref rest @ ..] = *pieces(file).get(record)? else {
        return None;
    };
    let &[high, low, ref content @ ..] = rest else {
        return Some((tag, "no length"));
    };
    let length = usize::from(u16::from_be_bytes([high, low]));
    Some(match length {
        _ if content.len() < length => (tag, "cut"),
        1 => (tag, "length 1"),
        2 => (tag, "length 2"),
        _ => (tag, "long"),
    })
}
