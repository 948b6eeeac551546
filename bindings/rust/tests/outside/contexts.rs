//! Reads of several objects (document 02, Req 02): their records, refusals, ways
//! and values.

use super::{deliver, done, line, lines, refused, whole};
use second_model::generate::generate;
use woldladle::{
    record_length, write_context, write_record, Answer, Freshness, Model, Values, LONGEST_RECORD,
};

/// The record of a read of these objects.
fn record(objects: &[u16]) -> Vec<u8> {
    let mut record = vec![0; LONGEST_RECORD];
    let size = write_context(objects, &mut record).expect("2 to 8 objects");
    record.truncate(size);
    record
}

/// The answer that finishes an operation with these values.
fn finished(operation: u32, values: &[u32]) -> Answer {
    Answer::Finished {
        operation,
        values: Values::of(values),
        freshness: Freshness::None,
    }
}

/// Begins a read of these objects.
fn begin(model: &mut Model, objects: &[u16]) {
    assert_eq!(model.step(&record(objects)), Answer::Done, "{objects:?}");
}

/// A write, from its begin to its completion, while other packets may wait; the
/// chain is whole.
fn write(model: &mut Model, replicas: u32, operation: u32, object: u32, value: u32) {
    let last = model.waiting() as u32;
    done(model, &[(2, object, value), (3, last, 0), (3, last, 0)]);
    for replica in 2..=replicas {
        done(model, &[(6, replica, 0)]);
    }
    assert_eq!(deliver(model, last), finished(operation, &[value]));
    done(model, &[(3, last, 0)]);
}

/// A chain whose replicas all hold 9 of object 9 and 7 of object 3, by operations
/// 1 and 2; direct reads are on and no mark counts. These are 13 records for two
/// replicas, and two more for each further one.
fn two_written(replicas: u8) -> Model {
    let mut model = Model::start(replicas).expect("1 to 8");
    write(&mut model, replicas.into(), 1, 9, 9);
    write(&mut model, replicas.into(), 2, 3, 7);
    assert_eq!((model.waiting(), model.marks()), (0, 0));
    model
}

// ---- records

#[test]
fn a_record_has_two_bytes_for_each_object() {
    let mut out = [0xaa; 20];
    assert_eq!(write_context(&[1023, 5], &mut out), Ok(7));
    assert_eq!(out[..8], [11, 0, 4, 3, 255, 0, 5, 0xaa]);
    let eight = [8, 7, 600, 5, 1000, 3, 65_535, 0];
    assert_eq!(write_context(&eight, &mut out), Ok(19));
    let expected = [
        11, 0, 16, 0, 8, 0, 7, 2, 88, 0, 5, 3, 232, 0, 3, 255, 255, 0, 0, 0xaa,
    ];
    assert_eq!(out, expected);
}

#[test]
fn the_writer_takes_objects_that_the_step_refuses() {
    assert_eq!(record(&[5, 5]), [11, 0, 4, 0, 5, 0, 5]);
    assert_eq!(record(&[1024, 256]), [11, 0, 4, 4, 0, 1, 0]);
}

/// Tag, length and objects.
fn laid_out(objects: &[u16]) -> Vec<u8> {
    let mut bytes = vec![11, 0, 2 * objects.len() as u8];
    bytes.extend(objects.iter().flat_map(|object| object.to_be_bytes()));
    bytes
}

#[test]
fn a_record_is_written_whole_or_not_at_all() {
    for count in 0..=9 {
        let objects: Vec<u16> = (0..count).map(|k| 65_535 - 300 * k).collect();
        let needed = 3 + 2 * objects.len();
        for room in 0..needed + 3 {
            let mut out = vec![0xaa; room];
            let answer = write_context(&objects, &mut out);
            let mut expected = vec![0xaa; room];
            if !(2..=8).contains(&count) {
                assert_eq!(answer, Err(1), "{count} {room}");
            } else if room < needed {
                assert_eq!(answer, Err(15), "{count} {room}");
            } else {
                assert_eq!(answer, Ok(needed), "{count} {room}");
                expected[..needed].copy_from_slice(&laid_out(&objects));
            }
            assert_eq!(out, expected, "{count} {room}");
        }
    }
}

#[test]
fn far_too_many_objects_are_refused_by_1() {
    for count in [10, 256, 258, 264, 65_536, 65_538, 65_544] {
        let objects = vec![5; count];
        let mut out = [0xaa; 30];
        assert_eq!(write_context(&objects, &mut out), Err(1), "{count}");
        assert_eq!(write_context(&objects, &mut []), Err(1), "{count}");
        assert_eq!(out, [0xaa; 30], "{count}");
    }
}

#[test]
fn tag_11_has_no_record_of_two_numbers() {
    assert_eq!(record_length(11), 0);
    for (first, second) in [(0, 0), (5, 6), (2, 0), (65_535, u32::MAX)] {
        for room in 0..=LONGEST_RECORD {
            let mut out = vec![0xaa; room];
            assert_eq!(write_record(11, first, second, &mut out), Err(1), "{room}");
            assert!(out.iter().all(|b| *b == 0xaa), "{room}");
        }
    }
}

// ---- refusals

/// A record with a content of this length: objects 1, 3, 5 and so on.
fn of_length(length: u16) -> Vec<u8> {
    let [high, low] = length.to_be_bytes();
    let content = (0..length).map(|k| if k % 2 == 0 { 0 } else { k as u8 });
    [11, high, low].into_iter().chain(content).collect()
}

#[test]
fn a_length_other_than_4_6_to_16_is_refused_by_1() {
    let taken = [4, 6, 8, 10, 12, 14, 16];
    let mut model = Model::start(2).expect("two");
    for length in (0..40).chain([256, 260, 272, 1028, 65_535]) {
        if !taken.contains(&length) {
            refused(&mut model, &of_length(length), 1);
        }
    }
    for length in taken {
        assert_eq!(model.step(&of_length(length)), Answer::Done, "{length}");
    }
    assert_eq!(model.waiting(), 7);
}

#[test]
fn a_record_with_bytes_missing_or_over_is_refused_by_1() {
    let mut model = Model::start(2).expect("two");
    for count in 2..=8 {
        let whole = of_length(2 * count);
        for cut in 0..whole.len() {
            refused(&mut model, &whole[..cut], 1);
        }
        refused(&mut model, &[&whole[..], &[0]].concat(), 1);
        refused(&mut model, &[&whole[..], &[0, 99]].concat(), 1);
    }
}

#[test]
fn an_object_above_1023_at_any_place_is_refused_by_3() {
    for (count, object) in (2..=8).flat_map(|n| [(n, 1024), (n, 65_535)]) {
        for place in 0..count {
            let mut model = Model::start(2).expect("two");
            let mut objects: Vec<u16> = (0..count as u16).collect();
            objects[place] = object;
            refused(&mut model, &record(&objects), 3);
            objects[place] = 1023;
            begin(&mut model, &objects);
        }
    }
}

#[test]
fn an_object_named_at_any_two_places_is_refused_by_16() {
    for count in 2..=8 {
        for (earlier, later) in (0..count).flat_map(|j| (0..j).map(move |i| (i, j))) {
            let mut model = Model::start(2).expect("two");
            let mut objects: Vec<u16> = (0..count as u16).map(|k| 1023 - k).collect();
            objects[later] = objects[earlier];
            refused(&mut model, &record(&objects), 16);
            objects[later] = 0;
            begin(&mut model, &objects);
        }
    }
}

/// 64 open operations, and no packet.
fn with_64_open() -> Model {
    let mut model = Model::start(2).expect("two");
    for _ in 0..64 {
        begin(&mut model, &[1, 2, 3]);
        done(&mut model, &[(4, 0, 0)]);
    }
    assert_eq!(model.waiting(), 0);
    model
}

/// 64 packets of one operation: a begin of a read of several objects, or of one,
/// and its copies.
fn with_64_waiting(objects: &[u16]) -> Model {
    let mut model = Model::start(2).expect("two");
    match objects {
        &[object] => done(&mut model, &[(1, object.into(), 0)]),
        objects => begin(&mut model, objects),
    }
    done(&mut model, &[(5, 0, 0); 63]);
    assert_eq!(model.waiting(), 64);
    model
}

/// 64 open operations, each with a packet.
fn with_64_of_both() -> Model {
    let mut model = Model::start(2).expect("two");
    (0..64).for_each(|_| begin(&mut model, &[1, 2, 3]));
    assert_eq!(model.waiting(), 64);
    model
}

#[test]
fn refusals_come_in_their_order() {
    for (mut model, refusal) in [
        (with_64_open(), 5),
        (with_64_waiting(&[7]), 6),
        (with_64_waiting(&[8, 7, 6, 5, 4, 3, 2, 1]), 6),
        (with_64_of_both(), 5),
    ] {
        refused(&mut model, &[11, 0, 2, 4, 0], 1); // one object, and that is 1,024
        refused(&mut model, &record(&[5, 5, 1024]), 3);
        refused(&mut model, &record(&[1024, 1024]), 3);
        refused(&mut model, &record(&[6, 5, 6]), 16);
        refused(&mut model, &record(&[5, 6]), refusal);
    }
}

#[test]
fn with_one_less_a_context_is_taken() {
    let mut model = with_64_open();
    done(&mut model, &[(10, 64, 0)]); // give up operation 64
    begin(&mut model, &[5, 6]);
    let mut model = with_64_waiting(&[5, 6]);
    done(&mut model, &[(4, 20, 0)]); // lose a packet
    begin(&mut model, &[9, 8, 7]);
    assert_eq!(model.waiting(), 64);
    done(&mut model, &[(3, 63, 0); 2]);
    assert_eq!(deliver(&mut model, 63), finished(2, &[0, 0, 0]));
    done(&mut model, &[(3, 0, 0), (3, 62, 0)]);
    assert_eq!(deliver(&mut model, 62), finished(1, &[0, 0]));
}

// ---- ways and values

#[test]
fn the_tail_answers_in_the_order_given() {
    let mut model = two_written(2);
    // the switch marks a write of 8 to object 5, and the head applies it
    done(&mut model, &[(2, 5, 8), (3, 0, 0), (3, 0, 0)]);
    assert_eq!((model.value(1, 5), model.value(2, 5)), (8, 0));
    begin(&mut model, &[9, 5, 3]);
    assert_eq!(line(&model, 17), "17 ok 1 1 - - -\n");
    done(&mut model, &[(3, 0, 0), (3, 0, 0)]); // to the tail, and its answer
    assert_eq!(deliver(&mut model, 0), finished(4, &[9, 0, 7]));
    assert_eq!((model.waiting(), model.marks()), (0, 1));
    assert_eq!(line(&model, 20), "20 ok 0 1 4 9,0,7 -\n");
    refused(&mut model, &[10, 0, 2, 0, 4], 13); // it is open no more
}

#[test]
fn a_replica_answers_directly() {
    let mut model = two_written(3);
    begin(&mut model, &[9, 5, 3]);
    done(&mut model, &[(3, 0, 4)]); // choice 4 of three: replica 2
    done(&mut model, &[(9, 3, 0), (9, 1, 0)]); // nobody else can answer
    done(&mut model, &[(3, 0, 0)]);
    assert_eq!(deliver(&mut model, 0), finished(3, &[9, 0, 7]));
    assert_eq!(line(&model, 21), "21 ok 0 0 3 9,0,7 -\n");
}

/// A direct read of 9, 5 and 3 that waits at the head, which has meanwhile applied
/// a write of 8 to an object; the tail has not.
fn read_before_a_write(object: u32) -> Model {
    let mut model = two_written(2);
    begin(&mut model, &[9, 5, 3]);
    done(&mut model, &[(3, 0, 0), (2, object, 8), (3, 1, 0)]);
    done(&mut model, &[(3, 1, 0)]);
    assert_eq!(model.value(1, object), 8);
    assert_eq!((model.waiting(), model.marks()), (1, 1));
    model
}

#[test]
fn one_stamp_above_sends_the_read_on_to_the_tail() {
    for (object, after) in [(9, [8, 0, 7]), (5, [9, 8, 7]), (3, [9, 0, 8])] {
        let mut model = read_before_a_write(object);
        done(&mut model, &[(3, 0, 0)]); // not answered, and sent on
        let mut later = model.clone();
        done(&mut model, &[(3, 0, 0)]); // the tail's answer
        assert_eq!(deliver(&mut model, 0), finished(3, &[9, 0, 7]));
        assert_eq!(line(&model, 21), "21 ok 0 1 3 9,0,7 -\n");
        // or the tail applies the write first, and sends a reply and a completion
        done(&mut later, &[(6, 2, 0), (3, 0, 0)]);
        assert_eq!(deliver(&mut later, 2), finished(3, &after));
    }
}

#[test]
fn the_stamp_of_another_object_does_not_matter() {
    let mut model = read_before_a_write(4);
    done(&mut model, &[(3, 0, 0)]); // answered, and not sent on
    assert_eq!(deliver(&mut model, 0), finished(3, &[9, 0, 7]));
}

// ---- copies

/// Two copies of the answer to operation 1, a read of 6 and 5: at position 0 from
/// before a write of 9 to object 5, at 3 from after it. Between them wait the
/// write's reply and completion.
fn two_answers() -> Model {
    let mut model = Model::start(1).expect("one");
    begin(&mut model, &[6, 5]);
    done(&mut model, &[(3, 0, 0), (5, 0, 0), (3, 0, 0)]);
    done(&mut model, &[(2, 5, 9), (3, 2, 0), (3, 2, 0), (3, 0, 0)]);
    assert_eq!(model.waiting(), 4);
    model
}

#[test]
fn two_copies_finish_once() {
    let mut model = two_answers();
    assert_eq!(deliver(&mut model, 0), finished(1, &[0, 0]));
    assert_eq!(deliver(&mut model, 2), Answer::Done);
    assert_eq!(deliver(&mut model, 0), finished(2, &[9]));
    let mut model = two_answers();
    assert_eq!(deliver(&mut model, 3), finished(1, &[0, 9]));
    assert_eq!(deliver(&mut model, 0), Answer::Done);
    assert_eq!(deliver(&mut model, 0), finished(2, &[9]));
    assert_eq!(model.waiting(), 1);
}

/// The reads of operations 1 to 4.
const READS: [&[u16]; 4] = [
    &[2, 1],
    &[1, 2, 3],
    &[6, 5, 4, 3, 2, 1],
    &[8, 7, 6, 5, 4, 3, 2, 1],
];

/// Fifteen copies of each read, in turn, on their way to the only replica.
fn sixty_copies() -> Model {
    let mut model = Model::start(1).expect("one");
    for objects in READS {
        begin(&mut model, objects);
    }
    for position in (0..14).flat_map(|_| 0..4) {
        done(&mut model, &[(5, position, 0)]);
    }
    done(&mut model, &[(3, 0, 0); 60]);
    assert_eq!(model.waiting(), 60);
    model
}

/// Has each copy answered, with a write before it; and what each answer then says,
/// oldest first.
fn answer_sixty(model: &mut Model) -> Vec<Answer> {
    let mut held = [0; 9];
    let mut answers = Vec::new();
    for copy in 0..60 {
        let object = copy % 8 + 1;
        held[object] = 1000 + copy as u32;
        let operation = 5 + copy as u32;
        write(model, 1, operation, object as u32, held[object]);
        done(model, &[(3, 0, 0)]);
        let objects = READS[copy % 4].iter();
        let values: Vec<u32> = objects.map(|o| held[usize::from(*o)]).collect();
        answers.push(finished(copy as u32 % 4 + 1, &values));
    }
    answers
}

#[test]
fn sixty_copies_each_have_their_own_values() {
    let mut model = sixty_copies();
    let answers = answer_sixty(&mut model);
    assert_eq!(model.waiting(), 60);
    assert_eq!(answers[0], finished(1, &[0, 1000]));
    for (position, expected) in (0..).zip(&answers) {
        assert_eq!(deliver(&mut model.clone(), position), *expected);
    }
    assert!((1..60).all(|copy| !answers[..copy].contains(&answers[copy])));
}

#[test]
fn sixty_copies_finish_four_reads() {
    let mut model = sixty_copies();
    let answers = answer_sixty(&mut model);
    let mut backwards = model.clone();
    for copy in 0..4 {
        assert_eq!(deliver(&mut model, 0), answers[copy]);
        assert_eq!(
            deliver(&mut backwards, 59 - copy as u32),
            answers[59 - copy]
        );
    }
    done(&mut model, &[(3, 0, 0); 56]);
    done(&mut backwards, &[(3, 0, 0); 56]);
    assert_eq!((model.waiting(), backwards.waiting()), (0, 0));
    // and there is room for as many again
    (0..60).for_each(|_| begin(&mut model, READS[3]));
}

// ---- whole runs

#[test]
fn a_whole_run_prints_the_values_joined() {
    let mut file = vec![32, 0, 1, 1];
    file.extend([2, 0, 6, 0, 9, 0, 0, 1, 0]); // write 256 to object 9
    file.extend([3, 0, 3, 0, 0, 0].repeat(4));
    file.extend([11, 0, 6, 3, 255, 0, 9, 0, 1]); // read 1,023, 9 and 1
    file.extend([3, 0, 3, 0, 0, 0].repeat(3));
    file.extend([11, 0, 4, 0, 9, 0, 9]);
    file.extend([11, 0, 4, 4, 0, 0, 9]);
    let expected = "1 ok 0 0 - - -\n2 ok 1 0 - - -\n3 ok 1 1 - - -\n4 ok 2 1 - - -\n\
        5 ok 1 1 1 256 -\n6 ok 0 0 - - -\n7 ok 1 0 - - -\n8 ok 1 0 - - -\n9 ok 1 0 - - -\n\
        10 ok 0 0 2 0,256,0 -\n11 no 16\n12 no 3\n";
    assert_eq!(String::from_utf8_lossy(&whole(&file)), expected);
    assert_eq!(lines(&file), Some(whole(&file)));
    file.extend([11, 0, 2, 0, 9]);
    assert!(whole(&file).ends_with(b"12 no 3\n13 no 1\n"));
}

#[test]
fn whole_runs_with_contexts_are_the_steps_one_by_one() {
    let mut commas = 0;
    for (kind, length) in [
        ("contexts", 65_536),
        ("contexts", 4000),
        ("small-contexts", 600),
    ] {
        for seed in 0..10 {
            let file = generate(kind, seed, length).expect("a kind");
            let stepped = lines(&file).expect("no refusal 1");
            assert!(whole(&file) == stepped, "{kind} {length} {seed}");
            commas += stepped.iter().filter(|b| **b == b',').count();
        }
    }
    assert!(commas > 1000, "{commas}");
}
