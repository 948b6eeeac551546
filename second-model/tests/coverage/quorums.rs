//! What becomes of the log, the links, the acknowledgements and the reads of a quorum
//! store (document 02, Req 11).

use second_model::model::{
    Age, Answer, Finished, Item, Model, Packet, Refusal, Stamp, Step, Way, FULL,
};

/// Every event that must occur, and how often at the least.
pub const WANTED: [(&str, usize); 48] = [
    ("quorum write: logged", 20_000),
    ("quorum write: logged, a former switch's", 100),
    ("quorum write: dropped, not above the last logged", 2_000),
    ("quorum write: dropped, log full", 2_000),
    ("quorum write: dropped, link full", 2_000),
    ("quorum write: no permit", 1_000),
    ("quorum advance: entry", 20_000),
    ("quorum advance: entry, refused for 64 waiting", 500),
    ("quorum advance: executed stamp", 20_000),
    ("quorum advance: executed stamp, 64 waiting", 100),
    ("quorum advance: the leader", 50),
    ("acknowledgement: of one entry more", 20_000),
    ("acknowledgement: covers several entries", 2_000),
    ("acknowledgement: heard of before", 2_000),
    ("acknowledgement: late", 1_000),
    ("acknowledgement: lost", 2_000),
    ("acknowledgement: repeated", 2_000),
    ("acknowledgement: of an executed entry", 2_000),
    ("execute: exactly a majority of three", 1_000),
    ("execute: exactly a majority of five", 1_000),
    ("execute: exactly a majority of seven", 500),
    ("execute: every replica", 2_000),
    ("execute: a former switch's write", 100),
    ("execute: a write given up", 1_000),
    ("execute: with 62 waiting", 50),
    ("24: nothing logged", 1_000),
    ("24: one short of a majority", 500),
    ("24: link full", 100),
    ("24: 63 or 64 waiting", 40),
    ("6: a majority, 63 or 64 waiting", 20),
    ("23: remove", 500),
    ("23: remove of none live", 50),
    ("23: join", 500),
    ("23: copy", 500),
    ("23: execute in a chain", 5_000),
    ("quorum direct: the leader answers", 2_000),
    ("quorum direct: a follower level with it answers", 2_000),
    ("quorum direct: a lagging follower answers", 1_000),
    ("quorum direct: a lagging follower answers a context", 300),
    ("quorum direct: the lagging follower's value is another", 10),
    ("quorum direct: answered above the stamp carried", 20),
    ("quorum direct: sent on, not executed", 2_000),
    ("quorum direct: sent on, not executed, a context", 500),
    (
        "quorum direct: sent on, though no object's stamp is above",
        2_000,
    ),
    ("quorum direct: sent on, other switch", 20),
    ("quorum normal: old", 5_000),
    ("quorum normal: new", 1_000),
    ("quorum normal: sent on, answered", 2_000),
];

type Events = Vec<&'static str>;

/// The packet at a position.
fn packet(model: &Model, position: u16) -> Option<Packet> {
    model.packets().get(usize::from(position)).copied()
}

/// The events that the state before a step shows.
pub fn before(model: &Model, step: Step) -> Events {
    match step {
        Step::Execute if !model.is_quorum() => vec!["23: execute in a chain"],
        _ if !model.is_quorum() => vec![],
        Step::Deliver { position, .. } => match packet(model, position) {
            Some(packet) => delivery(model, packet),
            None => vec![],
        },
        Step::Lose { position } => acknowledgement(model, position, "acknowledgement: lost"),
        Step::Repeat { position } => acknowledgement(model, position, "acknowledgement: repeated"),
        Step::Advance { replica } => advance(model, replica),
        Step::Execute => execution(model),
        Step::Remove { replica } if model.permits(replica).is_none() => {
            vec!["23: remove of none live"]
        }
        Step::Remove { .. } => vec!["23: remove"],
        Step::Join => vec!["23: join"],
        Step::Copy => vec!["23: copy"],
        _ => vec![],
    }
}

/// The event, if an acknowledgement stands at the position.
fn acknowledgement(model: &Model, position: u16, event: &'static str) -> Events {
    match packet(model, position) {
        Some(Packet::Acknowledgement { .. }) => vec![event],
        _ => vec![],
    }
}

fn delivery(model: &Model, packet: Packet) -> Events {
    let now = model.switch_number();
    match packet {
        Packet::UnstampedWrite { .. } => {
            match model.live().all(|r| model.permits(r) == Some(now)) {
                true => vec![],
                false => vec!["quorum write: no permit"],
            }
        }
        Packet::StampedWrite { write, .. } => stamped(model, write.stamp),
        Packet::Acknowledgement { from, entries } => heard(model, from, entries),
        Packet::DirectRead {
            to,
            objects,
            switch,
            committed,
            ..
        } => {
            let held = objects.each().filter_map(|o| model.held(to, o));
            let leading = objects.each().filter_map(|o| model.held(1, o));
            let differs = objects
                .each()
                .any(|o| model.held(to, o).map(|h| h.value) != model.held(1, o).map(|h| h.value));
            let above = held.zip(leading).any(|(held, _)| held.stamp > committed);
            let read = Direct {
                context: objects.is_context(),
                permitted: model.permits(to) == Some(switch),
                level: model.executed(to) >= Some(committed),
                lags: model.executed(to) < model.executed(1),
                leader: to == 1,
                differs,
                above,
            };
            read.events()
        }
        _ => vec![],
    }
}

/// A stamped write about to reach the leader.
fn stamped(model: &Model, stamp: Stamp) -> Events {
    let full = (model.unexecuted() >= FULL, model.link_full());
    match (model.is_above_the_log(stamp), full) {
        (false, _) => vec!["quorum write: dropped, not above the last logged"],
        (_, (true, true)) => vec!["quorum write: dropped, both full"],
        (_, (true, false)) => vec!["quorum write: dropped, log full"],
        (_, (false, true)) => vec!["quorum write: dropped, link full"],
        _ if stamp.switch() < model.switch_number() => {
            vec![
                "quorum write: logged",
                "quorum write: logged, a former switch's",
            ]
        }
        _ => vec!["quorum write: logged"],
    }
}

/// An acknowledgement about to reach the leader.
fn heard(model: &Model, from: u8, entries: u64) -> Events {
    let known = model.acknowledged(from);
    let executed = model.logged(1) - model.unexecuted() as u64;
    let mut events = match entries {
        _ if entries < known => vec!["acknowledgement: late"],
        _ if entries == known => vec!["acknowledgement: heard of before"],
        _ if entries == known + 1 => vec!["acknowledgement: of one entry more"],
        _ => vec!["acknowledgement: covers several entries"],
    };
    if entries <= executed {
        events.push("acknowledgement: of an executed entry");
    }
    events
}

fn advance(model: &Model, replica: u8) -> Events {
    let full = model.waiting() == FULL;
    match model.items(replica).next() {
        Some(Item::Entry(_)) if full => vec!["quorum advance: entry, refused for 64 waiting"],
        Some(Item::Entry(_)) => vec!["quorum advance: entry"],
        Some(Item::Executed(_)) if full => vec!["quorum advance: executed stamp, 64 waiting"],
        Some(Item::Executed(_)) => vec!["quorum advance: executed stamp"],
        None if replica == 1 => vec!["quorum advance: the leader"],
        None => vec![],
    }
}

/// Tag 14 about to be made.
fn execution(model: &Model) -> Events {
    let crowded = model.waiting() > FULL - 2;
    let majority = model.majority();
    let holders = model.holders();
    if !model.may_execute() {
        let reason = match holders {
            None => "24: nothing logged",
            Some(holders) if holders >= majority => "24: link full",
            Some(holders) if holders + 1 == majority => "24: one short of a majority",
            Some(_) => "24: far from a majority",
        };
        let crowded = crowded.then_some("24: 63 or 64 waiting");
        return [reason].into_iter().chain(crowded).collect();
    }
    if crowded {
        return vec!["6: a majority, 63 or 64 waiting"];
    }
    let mut events = Vec::new();
    match (holders == Some(majority), majority) {
        (true, 2) => events.push("execute: exactly a majority of three"),
        (true, 3) => events.push("execute: exactly a majority of five"),
        (true, _) => events.push("execute: exactly a majority of seven"),
        _ if holders == Some(model.live().len()) => events.push("execute: every replica"),
        _ => {}
    }
    if model.waiting() == FULL - 2 {
        events.push("execute: with 62 waiting");
    }
    events
}

/// A direct read about to reach a replica.
struct Direct {
    context: bool,
    permitted: bool,
    level: bool,
    lags: bool,
    leader: bool,
    differs: bool,
    above: bool,
}

impl Direct {
    fn events(&self) -> Events {
        let answered = self.permitted && self.level;
        let below = self.permitted && !self.level;
        let holds = [
            (answered && self.leader, "quorum direct: the leader answers"),
            (
                answered && !self.leader && !self.lags,
                "quorum direct: a follower level with it answers",
            ),
            (
                answered && self.lags,
                "quorum direct: a lagging follower answers",
            ),
            (
                answered && self.lags && self.context,
                "quorum direct: a lagging follower answers a context",
            ),
            (
                answered && self.differs,
                "quorum direct: the lagging follower's value is another",
            ),
            (
                answered && self.above,
                "quorum direct: answered above the stamp carried",
            ),
            (below, "quorum direct: sent on, not executed"),
            (
                below && self.context,
                "quorum direct: sent on, not executed, a context",
            ),
            (
                below && !self.above,
                "quorum direct: sent on, though no object's stamp is above",
            ),
            (!self.permitted, "quorum direct: sent on, other switch"),
        ];
        let held = holds.into_iter().filter(|(holds, _)| *holds);
        held.map(|(_, event)| event).collect()
    }
}

/// The events that a step shows afterwards. In every run of this store no link holds
/// more than 64 items, the leader has no more than 64 entries that are not executed,
/// each executed write is in the logs of a majority, and no follower is ahead of the
/// leader.
pub fn after(model: &Model, step: Step, answer: Answer) -> Events {
    if !model.is_quorum() {
        assert!(step != Step::Execute || answer == Err(Refusal::NotInThisStore));
        return vec![];
    }
    assert!(model.live().all(|r| model.coming(r) <= FULL));
    assert!(model.unexecuted() <= FULL);
    assert!(model.live().all(|r| model.executed(r) <= model.executed(1)));
    let executed = model.logged(1) - model.unexecuted() as u64;
    let holding = model.live().filter(|&r| model.logged(r) >= executed);
    assert!(holding.count() >= model.majority());
    let heard = |r| model.acknowledged(r) <= model.logged(r);
    assert!(model.live().all(heard));
    match (step, answer) {
        (Step::Execute, Ok(_)) => just_executed(model),
        (_, Ok(Some(finished))) => finished_so(finished),
        _ => vec![],
    }
}

/// What the reply and the completion at the end of the list say.
fn just_executed(model: &Model) -> Events {
    let mut events = Vec::new();
    let packets = model.packets();
    let [.., Packet::Reply { operation, .. }, Packet::Completion { stamp, .. }] = *packets else {
        panic!("neither reply nor completion");
    };
    if !model.is_open(operation) {
        events.push("execute: a write given up");
    }
    if stamp.switch() < model.switch_number() {
        events.push("execute: a former switch's write");
    }
    events
}

fn finished_so(finished: Finished) -> Events {
    match (finished.way, finished.age) {
        (Way::Tail, Age::Old) => vec!["quorum normal: old"],
        (Way::Tail, Age::New) => vec!["quorum normal: new"],
        (Way::SentOn, _) => vec!["quorum normal: sent on, answered"],
        _ => vec![],
    }
}
