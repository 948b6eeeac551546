//! The two libraries from outside, in one program: the same lines as the second
//! model, refusals that change nothing, and what a file of records cannot reach.
//! Reads of several objects, joins, quorum stores, drawn and shortened runs and the
//! stack have modules of their own.

#[path = "outside/contexts.rs"]
mod contexts;
#[path = "outside/draws.rs"]
mod draws;
#[path = "outside/joins.rs"]
mod joins;
#[path = "outside/quorum.rs"]
mod quorum;
#[path = "outside/shortening.rs"]
mod shortening;
#[path = "outside/stack.rs"]
mod stack;

use second_model::generate::{generate, Random, KINDS};
use second_model::{records, run::output};
use woldladle::{
    record_length, run, write_context, write_record, Answer, Freshness, Model, Values,
    LONGEST_CONTEXT, LONGEST_LINE, LONGEST_RECORD, OUTPUT_ROOM,
};

/// The lines of a file, record by record through the library; a run that ends
/// with 1, 2 or 14 is left to `run`.
fn lines(file: &[u8]) -> Option<Vec<u8>> {
    let pieces = records::pieces(file);
    let (first, rest) = pieces.split_first()?;
    let mut model = Model::start_record(first).ok()?;
    let mut out = b"1 ok 0 0 - - -\n".to_vec();
    let mut line = [0; LONGEST_LINE];
    for (number, record) in (2..).zip(rest) {
        if model.step(record) == Answer::Refused(1) {
            return None;
        }
        let size = model.line(number, &mut line);
        out.extend_from_slice(&line[..size]);
    }
    Some(out)
}

#[test]
fn prints_what_the_second_model_prints() {
    let mut out = vec![0; OUTPUT_ROOM];
    let mut stepped = 0;
    for (seed, (kind, _)) in (0..4).flat_map(|seed| KINDS.iter().map(move |k| (seed, k))) {
        let file = generate(kind, seed, 65_536 >> (4 * seed % 9)).expect("a kind");
        let expected = output(&file);
        let size = run(&file, &mut out);
        assert!(out[..size] == expected, "{kind} {seed}");
        if let Some(lines) = lines(&file) {
            assert!(lines == expected, "{kind} {seed}, by steps");
            stepped += 1;
        }
    }
    assert!(stepped > 80, "{stepped}");
}

/// How many bytes the whole lines have that fit into so much room, from the front
/// up to the first that does not.
fn fitting(output: &[u8], room: usize) -> usize {
    let ends = output.iter().enumerate().filter(|(_, b)| **b == b'\n');
    ends.map(|(i, _)| i + 1)
        .take_while(|end| *end <= room)
        .last()
        .unwrap_or(0)
}

#[test]
fn a_short_buffer_takes_whole_lines_only() {
    let mut random = Random::new(3);
    for (seed, (kind, _)) in KINDS.iter().enumerate() {
        let file = generate(kind, seed as u64, 2048).expect("a kind");
        let expected = output(&file);
        let rooms = (0..60).chain((0..200).map(|_| random.below(expected.len() + 20)));
        for room in rooms {
            let mut out = vec![0xaa; room];
            assert_eq!(run(&file, &mut out), expected.len(), "{kind} {room}");
            let held = fitting(&expected, room);
            assert!(out[..held] == expected[..held], "{kind} {room}");
            assert!(out[held..].iter().all(|b| *b == 0xaa), "{kind} {room}");
        }
    }
}

/// Writes a record of any tag, with small fields or large ones. The numbers of
/// newcomers rise, so half of the advances and tells name a live replica.
fn random_fields(random: &mut Random, model: &Model, record: &mut [u8]) -> Result<usize, u8> {
    let tag = random.within(0, 15) as u8;
    let (most, count) = if random.chance(500) {
        (8, 3)
    } else {
        (2048, 300)
    };
    if tag == 11 {
        let objects = 0..random.within(0, LONGEST_CONTEXT + 1);
        let objects: Vec<u16> = objects.map(|_| random.below(most) as u16).collect();
        return write_context(&objects, record);
    }
    if matches!(tag, 12..=14) {
        return write_record(tag, 0, 0, record);
    }
    if matches!(tag, 6 | 8) && random.chance(500) {
        let replica = random.one_of(&model.chain().live);
        return write_record(tag, replica.into(), 0, record);
    }
    let numbers = (random.below(most) as u32, random.below(count) as u32);
    write_record(tag, numbers.0, numbers.1, record)
}

/// Random bytes, random fields, or a step that may be accepted.
fn random_record(random: &mut Random, model: &Model) -> Vec<u8> {
    let mut record = vec![0; LONGEST_RECORD];
    match random_fields(random, model, &mut record) {
        Ok(size) if random.chance(950) => record.truncate(size),
        _ => {
            record.truncate(random.below(LONGEST_RECORD + 1));
            record.iter_mut().for_each(|b| *b = random.draw() as u8);
        }
    }
    record
}

/// The starts that stand: chains of 1 to 8, quorum stores of 3, 5 and 7.
const STARTS: [[u8; 4]; 11] = [
    [32, 0, 1, 1],
    [32, 0, 1, 2],
    [32, 0, 1, 3],
    [32, 0, 1, 4],
    [32, 0, 1, 5],
    [32, 0, 1, 6],
    [32, 0, 1, 7],
    [32, 0, 1, 8],
    [33, 0, 1, 3],
    [33, 0, 1, 5],
    [33, 0, 1, 7],
];

#[test]
fn a_refusal_changes_no_byte() {
    let mut random = Random::new(11);
    for start in STARTS {
        let (mut refused, mut done) = (0, 0);
        let mut model = Model::start_record(&start).expect("a start");
        for _ in 0..1500 {
            let record = random_record(&mut random, &model);
            let before = model.bytes();
            match model.step(&record) {
                Answer::Refused(_) => {
                    assert!(model.bytes() == before, "{record:?}");
                    refused += 1;
                }
                _ => done += 1,
            }
        }
        assert!(refused > 150 && done > 150, "{start:?}: {refused} {done}");
    }
}

/// Starts that are refused: by 1 where the bytes are not one whole start record, by 2
/// where a chain has not 1 to 8 replicas, or a quorum store not 3, 5 or 7.
const REFUSED_STARTS: [(&[u8], u8); 25] = [
    (&[], 1),
    (&[32], 1),
    (&[32, 0, 1], 1),              // a byte too few
    (&[32, 0, 1, 3, 0], 1),        // .. and too many
    (&[32, 0, 1, 3, 12, 0, 0], 1), // .. and a step
    (&[32, 0, 0], 1),
    (&[32, 0, 2, 3, 0], 1), // a length that no start has
    (&[32, 1, 0, 3], 1),
    (&[0, 0, 1, 3], 1), // no such tag
    (&[14, 0, 1, 3], 1),
    (&[33, 0, 1], 1),
    (&[33, 0, 0], 1),
    (&[33, 0, 2, 3, 3], 1),
    (&[33, 0, 1, 3, 14, 0, 0], 1),
    (&[34, 0, 1, 3], 1),
    (&[9, 0, 1, 3], 1), // a step
    (&[12, 0, 0], 1),
    (&[14, 0, 0], 1),
    (&[10, 0, 2, 0, 1], 1),
    (&[32, 0, 1, 0], 2),
    (&[32, 0, 1, 9], 2),
    (&[32, 0, 1, 255], 2),
    (&[33, 0, 1, 1], 2),
    (&[33, 0, 1, 4], 2),
    (&[33, 0, 1, 9], 2),
];

#[test]
fn a_start_is_one_whole_start_record() {
    for (record, refusal) in REFUSED_STARTS {
        let started = Model::start_record(record);
        assert_eq!(started.err(), Some(refusal), "{record:?}");
    }
    for n in 0..=255 {
        let by_record = |tag| Model::start_record(&[tag, 0, 1, n]).map(|model| model.bytes());
        let chain = Model::start(n).map(|model| model.bytes());
        let quorum = Model::start_quorum(n).map(|model| model.bytes());
        assert!(by_record(32) == chain && by_record(33) == quorum, "{n}");
    }
    let mut random = Random::new(13);
    for _ in 0..20_000 {
        let bytes = 0..random.below(7);
        let bytes: Vec<u8> = bytes
            .map(|_| random.one_of(&[0, 1, 3, 12, 32, 33]))
            .collect();
        let expected = match bytes[..] {
            [32, 0, 1, 1..=8] | [33, 0, 1, 3 | 5 | 7] => None,
            [32 | 33, 0, 1, _] => Some(2),
            _ => Some(1),
        };
        assert_eq!(Model::start_record(&bytes).err(), expected, "{bytes:?}");
    }
}

#[test]
fn a_refused_restart_leaves_the_session_going_on() {
    for start in [[32, 0, 1, 3], [33, 0, 1, 3]] {
        goes_on_after_refused_restarts(Model::start_record(&start).expect("three"));
    }
}

fn goes_on_after_refused_restarts(mut model: Model) {
    let mut random = Random::new(7);
    let (mut line, mut other) = ([0; LONGEST_LINE], [0; LONGEST_LINE]);
    let mut waited = 0;
    for number in 2..3000 {
        let mut restarted = model.clone();
        let before = model.bytes();
        for _ in 0..3 {
            let (start, refusal) = random.one_of(&REFUSED_STARTS);
            assert_eq!(restarted.restart_record(start), Err(refusal), "{start:?}");
            assert!(restarted.bytes() == before, "{start:?}");
            let size = restarted.line(number, &mut other);
            let line = format!("{number} no {refusal}\n");
            assert_eq!(other[..size], *line.as_bytes());
        }
        let record = random_record(&mut random, &model);
        assert_eq!(restarted.step(&record), model.step(&record));
        assert!(restarted.bytes() == model.bytes(), "{record:?}");
        let sizes = (
            model.line(number, &mut line),
            restarted.line(number, &mut other),
        );
        assert!(sizes.0 == sizes.1 && line[..sizes.0] == other[..sizes.1]);
        waited += usize::from(model.waiting() > 0 && model.marks() > 0);
        model = restarted;
    }
    assert!(waited > 1000, "{waited}");
    assert_eq!(model.restart(0), Err(2));
    assert_eq!(model.restart_quorum(6), Err(2));
    for (restart, n) in [
        (Model::restart as fn(&mut Model, u8) -> Result<(), u8>, 8),
        (Model::restart_quorum, 7),
    ] {
        let mut model = model.clone();
        assert_eq!(restart(&mut model, n), Ok(()));
        assert_eq!(model.chain().live.len(), usize::from(n));
        assert_eq!((model.waiting(), model.marks()), (0, 0));
        let size = model.line(1, &mut line);
        assert_eq!(&line[..size], b"1 ok 0 0 - - -\n");
    }
}

/// Steps with these numbers.
fn step(model: &mut Model, tag: u8, first: u32, second: u32) -> Answer {
    let mut record = [0; LONGEST_RECORD];
    let size = write_record(tag, first, second, &mut record).expect("a record");
    model.step(&record[..size])
}

/// Steps that finish nothing.
fn done(model: &mut Model, steps: &[(u8, u32, u32)]) {
    for &(tag, first, second) in steps {
        let answer = step(model, tag, first, second);
        assert_eq!(answer, Answer::Done, "{tag} {first} {second}");
    }
}

/// Delivers the packet at a position, with choice 0.
fn deliver(model: &mut Model, position: u32) -> Answer {
    step(model, 3, position, 0)
}

/// The line of the last step.
fn line(model: &Model, number: u64) -> String {
    let mut line = [0; LONGEST_LINE];
    let size = model.line(number, &mut line);
    String::from_utf8_lossy(&line[..size]).into_owned()
}

/// The step is refused and changes no byte.
fn refused(model: &mut Model, record: &[u8], refusal: u8) {
    let before = model.bytes();
    let answer = model.step(record);
    assert_eq!(answer, Answer::Refused(refusal), "{record:?}");
    assert!(model.bytes() == before, "{record:?}");
    assert_eq!(line(model, 7), format!("7 no {refusal}\n"));
}

/// A stamp in one number.
fn stamp(switch: u16, counter: u32) -> u64 {
    u64::from(switch) << 32 | u64::from(counter)
}

/// Everything that `run` gives for a file.
fn whole(file: &[u8]) -> Vec<u8> {
    let mut out = vec![0; OUTPUT_ROOM];
    let size = run(file, &mut out);
    out.truncate(size);
    out
}

fn finished(operation: u32, value: u32, freshness: Freshness) -> Answer {
    Answer::Finished {
        operation,
        values: Values::of(&[value]),
        freshness,
    }
}

#[test]
fn a_read_says_whether_it_overtook_the_pending_write() {
    let mut model = Model::start(1).expect("one");
    let mut line = [0; LONGEST_LINE];
    for (tag, first, second) in [
        (2, 5, 9), // begin a write of object 5
        (1, 5, 0), // .. and two reads
        (1, 5, 0),
        (3, 0, 0), // the switch marks the write
        (3, 0, 0), // .. and sends both reads to the tail
        (3, 0, 0),
        (3, 1, 0), // one read is answered before the write
        (3, 0, 0),
        (3, 0, 0), // .. and one after it
    ] {
        assert_eq!(step(&mut model, tag, first, second), Answer::Done);
    }
    let old = finished(2, 0, Freshness::Old);
    assert_eq!(step(&mut model, 3, 0, 0), old);
    let size = model.line(11, &mut line);
    assert_eq!(&line[..size], b"11 ok 3 1 2 0 old\n");
    let written = finished(1, 9, Freshness::None);
    assert_eq!(step(&mut model, 3, 0, 0), written);
    assert_eq!(step(&mut model, 3, 0, 0), Answer::Done);
    let new = finished(3, 9, Freshness::New);
    assert_eq!(step(&mut model, 3, 0, 0), new);
    let size = model.line(14, &mut line);
    assert_eq!(&line[..size], b"14 ok 0 0 3 9 new\n");
    // no mark counts any more, so the next read goes directly and says nothing
    for (tag, first, second) in [(1, 5, 0), (3, 0, 0), (3, 0, 0)] {
        assert_eq!(step(&mut model, tag, first, second), Answer::Done);
    }
    let direct = finished(4, 9, Freshness::None);
    assert_eq!(step(&mut model, 3, 0, 0), direct);
}

#[test]
fn operations_go_on_past_65_535() {
    let mut model = Model::start(1).expect("one");
    for operation in 1..=65_600 {
        assert_eq!(
            step(&mut model, 2, operation % 1024, operation),
            Answer::Done
        );
        assert_eq!(step(&mut model, 3, 0, 0), Answer::Done);
        assert_eq!(step(&mut model, 3, 0, 0), Answer::Done);
        let finished = finished(operation, operation, Freshness::None);
        assert_eq!(step(&mut model, 3, 0, 0), finished);
        assert_eq!(step(&mut model, 3, 0, 0), Answer::Done);
        let stamp = stamp(1, operation);
        assert_eq!(model.stamp(1, operation % 1024), stamp);
    }
    assert_eq!(step(&mut model, 1, 5, 0), Answer::Done);
    refused(&mut model, &[10, 0, 2, 0, 65], 13); // 65,601 mod 65,536
    refused(&mut model, &[10, 0, 3, 1, 0, 65], 1);
    assert_eq!(step(&mut model, 10, 65_601, 0), Answer::Done);
}

#[test]
fn a_give_up_of_either_length_is_taken() {
    for record in [&[10, 0, 2, 0, 1][..], &[10, 0, 4, 0, 0, 0, 1]] {
        let mut model = Model::start(2).expect("two");
        done(&mut model, &[(1, 5, 0)]);
        assert_eq!(model.step(record), Answer::Done);
        refused(&mut model, record, 13);
    }
    assert_eq!(record_length(10), 7);
    let mut record = [0xaa; 8];
    assert_eq!(write_record(10, 258, 0, &mut record[..6]), Err(15));
    assert_eq!(write_record(10, 258, 0, &mut record), Ok(7));
    assert_eq!(record, [10, 0, 4, 0, 0, 1, 2, 0xaa]);
}

#[test]
fn starts_of_1_to_8_stand() {
    let refusals = (0..=255).map(|n| Model::start(n).err().unwrap_or(0));
    let expected = (0..=255).map(|n| if (1..=8).contains(&n) { 0 } else { 2 });
    assert!(refusals.eq(expected));
}

#[test]
fn records_are_written_whole_or_not_at_all() {
    let mut random = Random::new(5);
    for _ in 0..20_000 {
        let tag = random.one_of(&[
            32, 33, 1, 2, 3, 4, 5, 6, 7, 8, 9, 10, 12, 13, 14, 0, 11, 15, 34, 255,
        ]);
        let first = random.one_of(&[0, 1, 255, 256, 1023, 65_535, 65_536, u32::MAX]);
        let second = random.one_of(&[0, 0, 1, 255, 256, u32::MAX]);
        let mut out = vec![0xaa; random.below(12)];
        let before = out.clone();
        match write_record(tag, first, second, &mut out) {
            Ok(size) => {
                assert_eq!(size, record_length(tag));
                assert!(out[size..] == before[size..]);
                let (_, read) = records::read(&out).expect("a record");
                assert_eq!(read, size);
            }
            Err(15) => assert!(out == before && out.len() < record_length(tag)),
            Err(refusal) => assert!(refusal == 1 && out == before),
        }
    }
}

#[test]
fn a_line_needs_its_room() {
    let mut model = Model::start(2).expect("two");
    assert_eq!(step(&mut model, 1, 5, 0), Answer::Done);
    let mut line = [0xaa; 14];
    assert_eq!(model.line(2, &mut line), 0);
    assert_eq!(line, [0xaa; 14]);
    let mut line = [0xaa; 16];
    assert_eq!(model.line(2, &mut line), 15);
    assert_eq!(&line, b"2 ok 1 0 - - -\n\xaa");
}

#[test]
fn what_is_not_there_is_0() {
    let mut model = Model::start(1).expect("one");
    for (tag, first, second) in [(2, 1023, 9), (3, 0, 0), (3, 0, 0)] {
        assert_eq!(step(&mut model, tag, first, second), Answer::Done);
    }
    assert_eq!(
        (model.value(1, 1023), model.stamp(1, 1023)),
        (9, stamp(1, 1))
    );
    for (replica, object) in [
        (0, 1023),
        (9, 1023),
        (2, 1023),
        (255, 1023),
        (1, 1024),
        (1, u32::MAX),
    ] {
        assert_eq!(
            (model.value(replica, object), model.stamp(replica, object)),
            (0, 0)
        );
    }
}
