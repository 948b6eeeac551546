//! What becomes of reads that the switch sends to the tail with the stamp of a
//! mark, and of those that carry none (document 02, Req 01).

use second_model::model::{Age, Answer, Model, Packet, Stamp, Step};
use std::collections::{BTreeMap, BTreeSet};

/// Every event that must occur often, and how often at the least.
pub const WANTED: [(&str, usize); 34] = [
    ("-: rejected direct read", 2_000),
    ("old: direct reads on", 20_000),
    ("old: direct reads off", 2_000),
    ("old: switch replaced meanwhile", 2_000),
    ("old: replica removed meanwhile", 1_000),
    ("old: read repeated", 2_000),
    ("old: another copy answered new", 80),
    ("old: mark no longer there", 20_000),
    ("old: write lost with the head", 200),
    ("new: direct reads on", 10_000),
    ("new: direct reads off", 500),
    ("new: switch replaced meanwhile", 1_000),
    ("new: replica removed meanwhile", 100),
    ("new: read repeated", 800),
    ("new: another copy answered old", 20),
    ("new: mark no longer there", 10_000),
    ("new: write lost with the head", 10),
    ("sent: direct reads off, no mark", 5_000),
    ("sent: direct reads off, mark forgotten", 3_000),
    ("sent: direct reads on, mark overtaken", 500),
    ("sent: another copy with another stamp", 1_000),
    ("rejected: object has a counting mark", 3_000),
    ("rejected: object has no counting mark", 3_000),
    ("answering: gone, with a stamp", 500),
    ("answering: never written", 5_000),
    ("answering: value below", 50_000),
    ("answering: value equal", 20_000),
    ("answering: value above", 5_000),
    ("answering: value of an earlier switch", 10_000),
    ("answering: value of a later switch", 200),
    ("answering: another copy was answered old", 300),
    ("repeated: normal read with a stamp", 5_000),
    ("repeated: reply with a stamp", 5_000),
    ("ignored: reply with a stamp", 50_000),
];

/// With direct reads off last-committed bears a lower number than the switch, so
/// every mark counts.
pub const NEVER: [&str; 1] = ["sent: direct reads off, mark overtaken"];

/// A read sent to the tail with a stamp: the operation and the stamp.
type Carrier = (u32, Stamp);

/// What held when it was sent.
struct Sent {
    object: u16,
    direct_reads: bool,
    live: usize,
}

/// The reads of a run so far.
#[derive(Default)]
pub struct Ages {
    sent: BTreeMap<Carrier, Sent>,
    repeated: BTreeSet<Carrier>,
    answered: BTreeMap<Carrier, Age>,
    differing: BTreeSet<Carrier>,
    rejected: BTreeSet<u32>,
    lost: BTreeSet<Stamp>,
    delivered: Option<Packet>,
}

type Events = Vec<&'static str>;

impl Ages {
    /// The events that the state before a step shows.
    pub fn before(&mut self, model: &Model, step: Step) -> Events {
        let packet = |position: u16| model.packets().get(usize::from(position)).copied();
        self.delivered = None;
        match step {
            Step::Deliver { position, .. } => {
                self.delivered = packet(position);
                self.delivering(model)
            }
            Step::Repeat { position } => self.repeating(packet(position)),
            Step::Remove { replica } => self.removing(model, replica),
            _ => vec![],
        }
    }

    /// A packet about to be delivered.
    fn delivering(&mut self, model: &Model) -> Events {
        match self.delivered {
            Some(Packet::Read { operation, objects }) => match objects.kept() {
                &[object] => self.sending(model, operation, object),
                _ => vec![],
            },
            Some(Packet::DirectRead {
                to,
                operation,
                objects,
                switch,
                committed,
            }) => {
                let &[object] = objects.kept() else {
                    return vec![];
                };
                let held = model.held(to, object);
                let above = held.is_some_and(|held| held.stamp > committed);
                let rejected = above || model.permits(to) != Some(switch);
                self.direct(model, operation, object, held.is_some() && rejected)
            }
            Some(Packet::NormalRead {
                to,
                operation,
                objects,
                carried: Some(carried),
                ..
            }) => match model.held(to, objects.kept()[0]) {
                Some(_) if model.live().last() != Some(to) => vec![],
                Some(held) => self.answering((operation, carried), held.stamp),
                None => vec!["answering: gone, with a stamp"],
            },
            _ => vec![],
        }
    }

    /// A read at the switch.
    fn sending(&mut self, model: &Model, operation: u32, object: u16) -> Events {
        let direct_reads = model.direct_reads();
        let Some(mark) = model.counting_mark(object) else {
            return match (direct_reads, pending(model, object)) {
                (false, None) => vec!["sent: direct reads off, no mark"],
                (false, Some(Writer::Earlier)) => vec!["sent: direct reads off, mark forgotten"],
                (false, Some(Writer::Present)) => vec!["sent: direct reads off, mark overtaken"],
                (true, Some(Writer::Present)) => vec!["sent: direct reads on, mark overtaken"],
                (true, _) => vec![],
            };
        };
        let copies = (operation, Stamp::ZERO)..(operation, mark);
        let other = self.sent.range(copies).next().is_some();
        let sent = Sent {
            object,
            direct_reads,
            live: model.live().len(),
        };
        self.sent.entry((operation, mark)).or_insert(sent);
        match other {
            true => vec!["sent: another copy with another stamp"],
            false => vec![],
        }
    }

    /// A direct read at a replica.
    fn direct(&mut self, model: &Model, operation: u32, object: u16, rejected: bool) -> Events {
        if !rejected {
            self.rejected.remove(&operation);
            return vec![];
        }
        self.rejected.insert(operation);
        match model.counting_mark(object) {
            Some(_) => vec!["rejected: object has a counting mark"],
            None => vec!["rejected: object has no counting mark"],
        }
    }

    /// A normal read with a stamp, at a replica that holds the object with
    /// this stamp.
    fn answering(&mut self, carrier: Carrier, held: Stamp) -> Events {
        let age = match held < carrier.1 {
            true => Age::Old,
            false => Age::New,
        };
        let mut events = vec![relation(held, carrier.1)];
        let earlier = self.answered.insert(carrier, age);
        if self.repeated.contains(&carrier) && earlier.is_some_and(|earlier| earlier != age) {
            self.differing.insert(carrier);
            events.push("answering: another copy was answered old");
        }
        events
    }

    /// A repeated packet.
    fn repeating(&mut self, packet: Option<Packet>) -> Events {
        match packet {
            Some(Packet::NormalRead {
                operation,
                carried: Some(carried),
                ..
            }) => {
                self.repeated.insert((operation, carried));
                vec!["repeated: normal read with a stamp"]
            }
            Some(Packet::Reply {
                carried: Some(_), ..
            }) => vec!["repeated: reply with a stamp"],
            _ => vec![],
        }
    }

    /// A replica removed; with the head go the writes in its link.
    fn removing(&mut self, model: &Model, replica: u8) -> Events {
        let mut live = model.live();
        if live.next() == Some(replica) {
            let link = live.next().map(|next| model.incoming(next));
            self.lost
                .extend(link.into_iter().flatten().map(|w| w.stamp));
        }
        vec![]
    }

    /// The events of a reply just delivered. A finished operation has an age
    /// exactly if the reply carries a stamp.
    pub fn after(&self, model: &Model, answer: Answer) -> Events {
        let Some(Packet::Reply {
            operation, carried, ..
        }) = self.delivered
        else {
            return vec![];
        };
        let age = answer.ok().flatten().map(|finished| finished.age);
        match (age, carried) {
            (None, Some(_)) => vec!["ignored: reply with a stamp"],
            (Some(Age::Old), Some(carried)) => self.finished(model, (operation, carried), OLD),
            (Some(Age::New), Some(carried)) => self.finished(model, (operation, carried), NEW),
            (Some(Age::None), None) if self.rejected.contains(&operation) => {
                vec!["-: rejected direct read"]
            }
            (Some(Age::None) | None, None) => vec![],
            other => panic!("age and stamp of a reply: {other:?}"),
        }
    }

    /// A read finished by a reply with a stamp; the names are for its age.
    fn finished(&self, model: &Model, carrier: Carrier, names: [&'static str; 8]) -> Events {
        let sent = &self.sent[&carrier];
        let holds = [
            sent.direct_reads,
            !sent.direct_reads,
            carrier.1.switch() != model.switch_number(),
            model.live().len() < sent.live,
            self.repeated.contains(&carrier),
            self.differing.contains(&carrier),
            model.counting_mark(sent.object) != Some(carrier.1),
            self.lost.contains(&carrier.1),
        ];
        let named = names.into_iter().zip(holds);
        named
            .filter_map(|(name, holds)| holds.then_some(name))
            .collect()
    }
}

/// What may hold of a read that finishes old or new, in the order of
/// `finished`.
const OLD: [&str; 8] = [
    "old: direct reads on",
    "old: direct reads off",
    "old: switch replaced meanwhile",
    "old: replica removed meanwhile",
    "old: read repeated",
    "old: another copy answered new",
    "old: mark no longer there",
    "old: write lost with the head",
];
const NEW: [&str; 8] = [
    "new: direct reads on",
    "new: direct reads off",
    "new: switch replaced meanwhile",
    "new: replica removed meanwhile",
    "new: read repeated",
    "new: another copy answered old",
    "new: mark no longer there",
    "new: write lost with the head",
];

/// The value's stamp beside the one carried.
fn relation(held: Stamp, carried: Stamp) -> &'static str {
    let (value, mark) = (held.switch(), carried.switch());
    match held {
        Stamp::ZERO => "answering: never written",
        _ if value < mark => "answering: value of an earlier switch",
        _ if value > mark => "answering: value of a later switch",
        _ if held < carried => "answering: value below",
        _ if held == carried => "answering: value equal",
        _ => "answering: value above",
    }
}

/// The switch that stamped a write: an earlier one, or the present one.
enum Writer {
    Earlier,
    Present,
}

/// The latest write of an object that is under way and not at the tail yet.
fn pending(model: &Model, object: u16) -> Option<Writer> {
    let tail = model.live().last()?;
    let applied = model.held(tail, object)?.stamp;
    let waiting = model.packets().iter().filter_map(|p| match p {
        Packet::StampedWrite { write, .. } => Some(*write),
        _ => None,
    });
    let linked = model.live().flat_map(|r| model.incoming(r));
    let ours = waiting.chain(linked).filter(|w| w.object == object);
    let latest = ours.map(|w| w.stamp).filter(|&s| s > applied).max()?;
    Some(match latest.switch() == model.switch_number() {
        true => Writer::Present,
        false => Writer::Earlier,
    })
}
