//! The random files reach every rule of document 01 and each way it drops, reads
//! of every age in many situations (document 02, Req 01), reads of contexts in as
//! many (Req 02), joins (Req 04), give-ups of both lengths (Req 07), completions of
//! former switches (Req 10), and quorum stores (Req 11); and how far drawn runs get
//! (Req 08).

#[path = "coverage/ages.rs"]
mod ages;
#[path = "coverage/completions.rs"]
mod completions;
#[path = "coverage/contexts.rs"]
mod contexts;
#[path = "coverage/draws.rs"]
mod draws;
#[path = "coverage/give_ups.rs"]
mod give_ups;
#[path = "coverage/joins.rs"]
mod joins;
#[path = "coverage/quorums.rs"]
mod quorums;

use ages::Ages;
use completions::Completions;
use contexts::Contexts;
use give_ups::{Fault, GiveUps};
use joins::Joins;
use second_model::compare::{file, Tally, Task};
use second_model::generate::KINDS;
use second_model::model::{Answer, Model, Packet, Refusal, Stamp, Step, FULL};
use second_model::records::{pieces, Reader, Record};
use second_model::run::INPUT_LONGEST;
use std::collections::BTreeMap;
use std::path::PathBuf;

/// The rare event, and how often it must occur at the least.
const RARE: (&str, usize) = ("begin: 64 open and 64 waiting", 10);

/// Every other event of document 01 that must occur, and how often at the
/// least; reads are those of one object.
const LEAST: usize = 100;
const WANTED: [&str; 30] = [
    "unstamped write: stamped",
    "unstamped write: no permit",
    "unstamped write: no slot",
    "read: direct",
    "read: normal",
    "stamped write: gone",
    "stamped write: too low",
    "stamped write: links full",
    "stamped write: into the link",
    "stamped write: lone",
    "stamped write: lone, full",
    "direct read: gone",
    "direct read: answered",
    "direct read: other switch",
    "direct read: stamp above",
    "normal read: gone",
    "normal read: answered",
    "completion: present switch",
    "completion: older switch",
    "reply: finishes",
    "reply: ignored",
    "advance: middle",
    "advance: tail",
    "advance: full",
    "remove: head with writes",
    "remove: middle with writes on both sides",
    "remove: tail with writes",
    "repeat: unstamped with 64 waiting",
    "repeat: full",
    "begin: full",
];

/// How often each event was seen.
type Seen = BTreeMap<&'static str, usize>;

/// A comparison as it is if nothing is named, but for the seed.
fn comparison() -> Task {
    Task {
        program: PathBuf::new(),
        files: 2600,
        small: 680,
        seed: 1,
        keep: PathBuf::new(),
    }
}

#[test]
fn every_rule_and_situation_is_reached() {
    let task = comparison();
    let mut seen = Seen::new();
    for index in 0..task.files {
        watch(&file(&task, index).1, &mut seen);
    }
    let rules = WANTED.into_iter().map(|event| (event, LEAST));
    let mut seldom = String::new();
    let ages = ages::WANTED.into_iter().chain(contexts::WANTED);
    let joins = joins::WANTED.into_iter().chain(give_ups::WANTED);
    let all = rules.chain([RARE]).chain(ages).chain(joins);
    let all = all.chain(completions::WANTED).chain(quorums::WANTED);
    for (event, least) in all {
        let times = seen.get(event).copied().unwrap_or(0);
        println!("{event:<56} {times:>9}");
        if times < least {
            seldom += &format!("{event}: {times}, not {least}\n");
        }
    }
    assert!(seldom.is_empty(), "{seldom}");
    for event in ages::NEVER.into_iter().chain(completions::NEVER) {
        assert_eq!(seen.get(event), None, "{event}");
    }
}

#[test]
fn small_runs_have_reads_of_every_age() {
    let task = comparison();
    let mut tally = Tally::default();
    for index in task.files..task.files + task.small {
        tally.count(&file(&task, index).1);
    }
    assert!(tally.old >= 100, "old {}", tally.old);
    assert!(tally.new >= 50, "new {}", tally.new);
    assert!(tally.finished >= 2 * (tally.old + tally.new));
}

#[test]
fn small_runs_have_contexts_of_every_way() {
    let task = comparison();
    let mut tally = Tally::default();
    for index in task.files..task.files + task.small {
        tally.count(&file(&task, index).1);
    }
    for ((name, times), least) in tally.contexts.rows().into_iter().zip([200, 200, 40]) {
        assert!(times >= least, "{name}: {times}");
    }
}

/// Of the small runs a third has joins; most of those have a whole one.
#[test]
fn small_runs_have_whole_joins() {
    let task = comparison();
    let (mut runs, mut whole) = (0, 0);
    for index in task.files..task.files + task.small {
        let (kind, file) = file(&task, index);
        if kind == "small-joins" {
            let mut tally = Tally::default();
            tally.count(&file);
            runs += 1;
            whole += usize::from(tally.joins.whole > 0);
        }
    }
    println!("{whole} of {runs} small runs have a whole join");
    assert!(runs >= 160 && whole * 10 >= runs * 7, "{whole} of {runs}");
}

/// Wrong lengths of tags 12 and 13, and the next tag, end a run; some are cut
/// short, before the length or in the content.
#[test]
fn every_fault_of_a_join_is_reached() {
    let task = comparison();
    let mut faults: BTreeMap<(u8, &str), usize> = BTreeMap::new();
    for index in (0..task.files).filter(|index| KINDS[index % KINDS.len()].0 == "join-faults") {
        let file = file(&task, index).1;
        if file.len() <= INPUT_LONGEST {
            let fault = Reader::new(&file).position(|record| record.is_err());
            let fault = fault.and_then(|place| joins::fault(&file, place));
            if let Some(fault) = fault {
                *faults.entry(fault).or_default() += 1;
            }
        }
    }
    println!("{faults:?}");
    for tag in [12, 13] {
        for sort in ["no length", "length 1", "length 2", "long", "cut"] {
            assert!(faults.contains_key(&(tag, sort)), "{tag}, {sort}");
        }
    }
    assert!(faults.keys().any(|(tag, _)| *tag == 14));
}

/// Wrong lengths of tag 10 end a run, some above 8 and some with another high byte;
/// both right lengths are cut everywhere; and some faults follow a give-up with
/// length 2.
#[test]
fn every_fault_of_a_give_up_is_reached() {
    let task = comparison();
    let mut faults: BTreeMap<Fault, usize> = BTreeMap::new();
    let mut following = 0;
    for index in (0..task.files).filter(|index| KINDS[index % KINDS.len()].0 == "give-ups") {
        let file = file(&task, index).1;
        let place = Reader::new(&file).position(|record| record.is_err());
        let Some(place) = place.filter(|_| file.len() <= INPUT_LONGEST) else {
            continue;
        };
        if let Some(fault) = give_ups::fault(&file, place) {
            *faults.entry(fault).or_default() += 1;
        }
        let before = place.checked_sub(1).map(|before| pieces(&file)[before]);
        following += usize::from(before.is_some_and(|piece| piece.starts_with(&[10, 0, 2])));
    }
    println!("{faults:?}, {following} after length 2");
    for length in [0, 1, 3, 5, 6, 7, 8] {
        assert!(faults.contains_key(&Fault::Length(length)), "{length}");
    }
    let long = |least| faults.range(Fault::Length(least)..Fault::Cut(0, 0)).count();
    assert!(long(9) >= 3 && long(256) >= 2);
    for cut in [(2, 0), (2, 1), (4, 0), (4, 1), (4, 2), (4, 3)] {
        assert!(faults.contains_key(&Fault::Cut(cut.0, cut.1)), "{cut:?}");
    }
    assert!(faults.contains_key(&Fault::NoLength) && following >= 5);
}

/// What ends a run or refuses a context in one file, by places and lengths.
#[derive(Default)]
struct Faults {
    lengths: BTreeMap<usize, usize>,
    cut: usize,
    above: BTreeMap<(usize, usize), usize>,
    twice: BTreeMap<(usize, usize), usize>,
}

/// Every wrong length of tag 11 up to 20 and some far above it end a run; some
/// are cut short. Of eight objects each is above 1,023 alone, and each two are
/// the only two of a name.
#[test]
fn every_fault_of_a_context_is_reached() {
    let task = comparison();
    let mut faults = Faults::default();
    for index in 0..task.files {
        if KINDS[index % KINDS.len()].0 == "context-faults" {
            look_for_faults(&file(&task, index).1, &mut faults);
        }
    }
    println!("lengths {:?}, cut {}", faults.lengths, faults.cut);
    println!("above {:?}\ntwice {:?}", faults.above, faults.twice);
    let right = [4, 6, 8, 10, 12, 14, 16];
    for length in (0..=20).filter(|length| !right.contains(length)) {
        assert!(faults.lengths.contains_key(&length), "length {length}");
    }
    assert!(faults.lengths.range(21..).count() >= 3);
    assert!(faults.cut >= 5, "cut {}", faults.cut);
    assert_eq!((faults.above.len(), faults.twice.len()), (8, 28));
}

fn look_for_faults(file: &[u8], faults: &mut Faults) {
    if file.len() > INPUT_LONGEST {
        return;
    }
    for (place, record) in Reader::new(file).enumerate() {
        match record {
            Ok(Record::Step(Step::Context { objects })) if objects.count() == 8 => {
                count_places(objects.kept(), faults);
            }
            Ok(_) => {}
            Err(_) => match contexts::fault(file, place) {
                Some((length, true)) => *faults.lengths.entry(length).or_default() += 1,
                Some((_, false)) => faults.cut += 1,
                None => {}
            },
        }
    }
}

/// The place of the only object above 1,023, or of the only two of a name.
fn count_places(objects: &[u16], faults: &mut Faults) {
    let pairs = (0..8).flat_map(|a| (a + 1..8).map(move |b| (a, b)));
    let twice: Vec<_> = pairs.filter(|&(a, b)| objects[a] == objects[b]).collect();
    let above: Vec<_> = (0..8).filter(|&a| objects[a] > 1023).collect();
    match (above.as_slice(), twice.as_slice()) {
        (&[place], []) => *faults.above.entry((place, place)).or_default() += 1,
        ([], &[pair]) => *faults.twice.entry(pair).or_default() += 1,
        _ => {}
    }
}

/// Runs a file and counts its events; one that is too long is not run.
fn watch(file: &[u8], seen: &mut Seen) {
    if file.len() > INPUT_LONGEST {
        return;
    }
    let mut reader = Reader::new(file);
    let Some(Ok(Record::Start(start))) = reader.next() else {
        return;
    };
    let Ok(model) = Model::start(start) else {
        return;
    };
    match model.is_quorum() {
        true => watch_quorum(model, reader, seen),
        false => watch_chain(model, reader, file, seen),
    }
}

/// The same for a leader with followers.
fn watch_quorum(mut model: Model, reader: Reader, seen: &mut Seen) {
    let mut completions = Completions::default();
    for record in reader {
        let Ok(Record::Step(step)) = record else {
            return;
        };
        let mut events = quorums::before(&model, step);
        events.extend(completions.before(&model, step));
        let answer = model.step(step);
        events.extend(quorums::after(&model, step, answer));
        events.extend(completions.after(&model, step, answer));
        assert!(model.counter() <= model.begun(), "a counter runs ahead");
        for event in events {
            *seen.entry(event).or_default() += 1;
        }
    }
}

/// The same for a chain.
fn watch_chain(mut model: Model, reader: Reader, file: &[u8], seen: &mut Seen) {
    let mut ages = Ages::default();
    let mut contexts = Contexts::default();
    let mut joins = Joins::default();
    let mut completions = Completions::default();
    let mut give_ups = GiveUps::default();
    for (record, piece) in reader.zip(pieces(file).into_iter().skip(1)) {
        let Ok(Record::Step(step)) = record else {
            return;
        };
        let early = before(&model, step);
        let mut events = ages.before(&model, step);
        events.extend(contexts.before(&model, step));
        events.extend(joins.before(&model, step));
        events.extend(completions.before(&model, step));
        events.extend(quorums::before(&model, step));
        let waiting = model.waiting();
        let answer = model.step(step);
        let late = match early {
            Some("unstamped write: permitted" | "read") => at_switch(&model, waiting),
            Some("context") => contexts::sent(&model),
            _ => refused(&model, step, answer),
        };
        events.extend(early.into_iter().chain(late));
        events.extend(ages.after(&model, answer));
        events.extend(contexts.after(&model, step, answer));
        events.extend(give_ups.after(&model, step, piece, answer));
        events.extend(completions.after(&model, step, answer));
        events.extend(quorums::after(&model, step, answer));
        joins.after(&model, step, answer);
        assert!(model.counter() <= model.begun(), "a counter runs ahead");
        for event in events {
            *seen.entry(event).or_default() += 1;
        }
    }
    if let Some(event) = give_ups.end() {
        *seen.entry(event).or_default() += 1;
    }
}

/// What the state before a step says about it.
fn before(model: &Model, step: Step) -> Option<&'static str> {
    match step {
        Step::Deliver { position, .. } => {
            let packet = *model.packets().get(usize::from(position))?;
            delivery(model, packet)
        }
        Step::Advance { replica } if model.incoming(replica).len() > 0 => {
            let tail = model.live().last() == Some(replica);
            Some(match tail {
                true if model.waiting() > FULL - 2 => "advance: full",
                true => "advance: tail",
                false => "advance: middle",
            })
        }
        Step::Remove { replica } => removal(model, replica),
        Step::Read { .. } | Step::Write { .. } if model.waiting() == FULL => {
            (model.open() == FULL).then_some("begin: 64 open and 64 waiting")
        }
        _ => None,
    }
}

/// A packet about to be delivered; the rest about a context is told elsewhere.
fn delivery(model: &Model, packet: Packet) -> Option<&'static str> {
    let now = model.switch_number();
    Some(match packet {
        Packet::UnstampedWrite { .. } => {
            match model.live().all(|r| model.permits(r) == Some(now)) {
                true => "unstamped write: permitted",
                false => "unstamped write: no permit",
            }
        }
        Packet::Read { objects, .. } if objects.is_context() => "context",
        Packet::Read { .. } => "read",
        Packet::StampedWrite { to, write } => stamped(model, to, write.stamp),
        Packet::DirectRead {
            to,
            objects,
            switch,
            committed,
            ..
        } => match objects.kept() {
            &[object] => direct(model, to, object, switch, committed),
            _ => return None,
        },
        Packet::NormalRead { objects, .. } if objects.is_context() => return None,
        Packet::NormalRead { to, .. } => match model.permits(to) {
            None => "normal read: gone",
            Some(_) if model.live().last() != Some(to) => return None,
            Some(_) => "normal read: answered",
        },
        Packet::Completion { stamp, .. } if stamp < Stamp::new(now, 0) => {
            "completion: older switch"
        }
        Packet::Completion { .. } => "completion: present switch",
        Packet::Acknowledgement { .. } => return None,
        Packet::Reply { values, .. } if values.count() > 1 => return None,
        Packet::Reply { operation, .. } if model.is_open(operation) => "reply: finishes",
        Packet::Reply { .. } => "reply: ignored",
    })
}

/// A direct read of one object.
fn direct(model: &Model, to: u8, object: u16, switch: u16, committed: Stamp) -> &'static str {
    match model.held(to, object) {
        None => "direct read: gone",
        Some(_) if model.permits(to) != Some(switch) => "direct read: other switch",
        Some(held) if held.stamp > committed => "direct read: stamp above",
        Some(_) => "direct read: answered",
    }
}

/// A stamped write; the highest stamp is that of some object.
fn stamped(model: &Model, to: u8, stamp: Stamp) -> &'static str {
    if model.permits(to).is_none() {
        return "stamped write: gone";
    }
    let held = (0..1024).filter_map(|object| model.held(to, object));
    if held.map(|h| h.stamp).max() >= Some(stamp) {
        return "stamped write: too low";
    }
    match (model.live().len(), model.linked(), model.waiting()) {
        (1, _, FULL) => "stamped write: lone, full",
        (1, _, _) => "stamped write: lone",
        (_, FULL, _) => "stamped write: links full",
        _ => "stamped write: into the link",
    }
}

fn removal(model: &Model, replica: u8) -> Option<&'static str> {
    let live: Vec<u8> = model.live().collect();
    let place = live.iter().position(|&r| r == replica)?;
    let coming = model.incoming(replica).len();
    let going = live.get(place + 1).map(|&next| model.incoming(next).len());
    match (place, coming, going) {
        (0, _, Some(1..)) => Some("remove: head with writes"),
        (1.., 1.., Some(1..)) => Some("remove: middle with writes on both sides"),
        (1.., 1.., None) => Some("remove: tail with writes"),
        _ => None,
    }
}

/// What came of a permitted unstamped write or a read, by the last packet.
fn at_switch(model: &Model, waiting: usize) -> Option<&'static str> {
    if model.waiting() < waiting {
        return Some("unstamped write: no slot");
    }
    match model.packets().last()? {
        Packet::StampedWrite { .. } => Some("unstamped write: stamped"),
        Packet::DirectRead { .. } => Some("read: direct"),
        Packet::NormalRead { .. } => Some("read: normal"),
        other => panic!("{other:?} made by the switch"),
    }
}

/// What a refusal says about a step.
fn refused(model: &Model, step: Step, answer: Answer) -> Option<&'static str> {
    match (step, answer.err()?) {
        (Step::Repeat { .. }, Refusal::UnstampedRepeat) if model.waiting() == FULL => {
            Some("repeat: unstamped with 64 waiting")
        }
        (Step::Repeat { .. }, Refusal::TooManyWaiting) => Some("repeat: full"),
        (Step::Read { .. } | Step::Write { .. }, Refusal::TooManyWaiting) => Some("begin: full"),
        _ => None,
    }
}
