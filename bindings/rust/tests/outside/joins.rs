//! Joins (document 02, Req 04): their records and refusals, what the newcomer holds
//! at each point, and the chain before and after. A stamp is the switch number
//! times 4,294,967,296, and the counter.

use super::{deliver, done, finished, line, lines, refused, stamp, whole};
use second_model::generate::{generate, Random};
use second_model::model::{self, Held, Stamp};
use second_model::records::{self, Record};
use woldladle::{
    record_length, write_context, write_record, Answer, Chain, Freshness, Model, Newcomer, Values,
    LONGEST_RECORD,
};

const JOIN: (u8, u32, u32) = (12, 0, 0);
const COPY: (u8, u32, u32) = (13, 0, 0);

/// The live replicas, and the newcomer's number with its copies.
fn chain(live: &[u8], newcomer: Option<(u8, u8)>) -> Chain {
    Chain {
        live: live.to_vec(),
        newcomer: newcomer.map(|(number, copies)| Newcomer { number, copies }),
    }
}

/// Value and stamp of an object at a replica.
fn held(model: &Model, replica: u8, object: u32) -> (u32, u64) {
    (model.value(replica, object), model.stamp(replica, object))
}

/// A write, from its begin to its completion, in a chain of these replicas with no
/// packet waiting.
fn write(model: &mut Model, chain: &[u8], operation: u32, object: u32, value: u32) {
    done(model, &[(2, object, value), (3, 0, 0), (3, 0, 0)]);
    for replica in &chain[1..] {
        done(model, &[(6, u32::from(*replica), 0)]);
    }
    let written = finished(operation, value, Freshness::None);
    assert_eq!(deliver(model, 0), written);
    done(model, &[(3, 0, 0)]);
    assert_eq!((model.waiting(), model.marks()), (0, 0));
}

/// Replicas 1 and 2 hold 9 of object 5, with stamp (1,1), and 7 of object 100, with
/// stamp (1,2), by operations 1 and 2.
fn two_written() -> Model {
    let mut model = Model::start(2).expect("two");
    write(&mut model, &[1, 2], 1, 5, 9);
    write(&mut model, &[1, 2], 2, 100, 7);
    model
}

// ---- records

#[test]
fn a_record_has_tag_and_length_alone() {
    for tag in [12, 13] {
        assert_eq!(record_length(tag), 3);
        for room in 0..6 {
            let mut out = vec![0xaa; room];
            let (answer, start) = match room {
                0..=2 => (Err(15), vec![]),
                _ => (Ok(3), vec![tag, 0, 0]),
            };
            assert_eq!(write_record(tag, 0, 0, &mut out), answer, "{room}");
            assert_eq!(out[..start.len()], start);
            assert!(out[start.len()..].iter().all(|b| *b == 0xaa), "{room}");
        }
        for (first, second) in [(1, 0), (0, 1), (3, 0), (u32::MAX, u32::MAX)] {
            let mut out = [0xaa; LONGEST_RECORD];
            assert_eq!(write_record(tag, first, second, &mut out), Err(1));
            assert_eq!(out, [0xaa; LONGEST_RECORD]);
        }
    }
}

#[test]
fn another_length_is_refused_by_1() {
    let mut model = Model::start(2).expect("two");
    for tag in [12, 13] {
        for record in [
            &[tag][..],
            &[tag, 0],
            &[tag, 0, 0, 0],
            &[tag, 0, 1],
            &[tag, 0, 1, 3],
            &[tag, 0, 2, 0, 3],
            &[tag, 1, 0],
            &[tag, 255, 255],
        ] {
            refused(&mut model, record, 1);
        }
        done(&mut model, &[(tag, 0, 0)]);
    }
    assert_eq!(model.chain(), chain(&[1, 2], Some((3, 1))));
}

// ---- what the newcomer holds

#[test]
fn a_newcomer_takes_copies_and_writes_and_becomes_the_tail() {
    let mut model = two_written();
    assert_eq!(model.chain(), chain(&[1, 2], None));
    done(&mut model, &[JOIN]);
    assert_eq!(line(&model, 14), "14 ok 0 0 - - -\n");
    assert_eq!(model.chain(), chain(&[1, 2], Some((3, 0))));
    assert_eq!(held(&model, 3, 5), (0, 0));
    done(&mut model, &[COPY]); // objects 0 to 63
    assert_eq!(model.chain(), chain(&[1, 2], Some((3, 1))));
    assert_eq!(held(&model, 3, 5), (9, stamp(1, 1)));
    assert_eq!(held(&model, 3, 100), (0, 0));

    // a write of object 5 gets to the newcomer when the tail applies it
    done(&mut model, &[(2, 5, 8), (3, 0, 0), (3, 0, 0)]);
    assert_eq!(held(&model, 1, 5), (8, stamp(1, 3)));
    assert_eq!(held(&model, 2, 5), (9, stamp(1, 1)));
    assert_eq!(held(&model, 3, 5), (9, stamp(1, 1)));
    done(&mut model, &[(6, 2, 0)]);
    assert_eq!(held(&model, 2, 5), (8, stamp(1, 3)));
    assert_eq!(held(&model, 3, 5), (8, stamp(1, 3)));
    let written = finished(3, 8, Freshness::None);
    assert_eq!(deliver(&mut model, 0), written);
    done(&mut model, &[(3, 0, 0)]);

    // .. and one of object 100 with its copy
    write(&mut model, &[1, 2], 4, 100, 6);
    assert_eq!(held(&model, 2, 100), (6, stamp(1, 4)));
    assert_eq!(held(&model, 3, 100), (0, 0));
    for copies in 2..16 {
        done(&mut model, &[COPY]);
        assert_eq!(model.chain(), chain(&[1, 2], Some((3, copies))));
        assert_eq!(held(&model, 3, 100), (6, stamp(1, 4)));
    }
    done(&mut model, &[COPY]);
    assert_eq!(model.chain(), chain(&[1, 2, 3], None));
    for object in 0..1024 {
        assert_eq!(held(&model, 3, object), held(&model, 2, object));
    }
    assert_eq!(held(&model, 3, 5), (8, stamp(1, 3)));

    // a write now goes down to the new tail, which alone replies
    done(&mut model, &[(2, 7, 5), (3, 0, 0), (3, 0, 0), (6, 2, 0)]);
    assert_eq!((model.waiting(), model.marks()), (0, 1));
    assert_eq!((model.value(2, 7), model.value(3, 7)), (5, 0));
    done(&mut model, &[(6, 3, 0)]);
    assert_eq!(held(&model, 3, 7), (5, stamp(1, 5)));
    let written = finished(5, 5, Freshness::None);
    assert_eq!(deliver(&mut model, 0), written);
    done(&mut model, &[(3, 0, 0)]);
}

/// Replica 3 alone, which has joined; the others are removed.
fn joined_alone() -> Model {
    let mut model = two_written();
    done(&mut model, &[JOIN]);
    done(&mut model, &[COPY; 16]);
    done(&mut model, &[(9, 1, 0)]); // remove the head
    assert_eq!(model.chain(), chain(&[2, 3], None));
    assert_eq!(held(&model, 1, 5), (0, 0));
    assert_eq!(held(&model, 2, 5), (9, stamp(1, 1)));
    done(&mut model, &[(9, 2, 0)]); // .. and the old tail
    assert_eq!(model.chain(), chain(&[3], None));
    assert_eq!(held(&model, 2, 5), (0, 0));
    model
}

#[test]
fn the_joined_replica_goes_on_alone() {
    let mut model = joined_alone();
    assert_eq!(held(&model, 3, 5), (9, stamp(1, 1)));
    assert_eq!(held(&model, 3, 100), (7, stamp(1, 2)));
    done(&mut model, &[(1, 5, 0), (3, 0, 0), (3, 0, 0)]);
    let read = finished(3, 9, Freshness::None);
    assert_eq!(deliver(&mut model, 0), read);
    write(&mut model, &[3], 4, 5, 8);
    assert_eq!(held(&model, 3, 5), (8, stamp(1, 3)));
}

/// The rows of replicas 1 and 2 hold what they held; the next two newcomers show
/// none of it.
#[test]
fn a_newcomer_shows_nothing_of_those_before_it() {
    let mut model = joined_alone();
    for (number, live) in [(4, &[3][..]), (5, &[3, 4])] {
        done(&mut model, &[JOIN]);
        assert_eq!(model.chain(), chain(live, Some((number, 0))));
        for object in 0..1024 {
            assert_eq!(held(&model, number, object), (0, 0));
        }
        done(&mut model, &[COPY]);
        assert_eq!(held(&model, number, 5), (9, stamp(1, 1)));
        assert_eq!(held(&model, number, 100), (0, 0));
        done(&mut model, &[COPY; 15]);
    }
    assert_eq!(model.chain(), chain(&[3, 4, 5], None));
}

#[test]
fn each_copy_brings_the_next_64_objects() {
    let mut model = Model::start(1).expect("one");
    for object in 0..1024 {
        write(&mut model, &[1], object + 1, object, 5000 + object);
    }
    done(&mut model, &[JOIN]);
    for copies in 0..16 {
        assert_eq!(model.chain(), chain(&[1], Some((2, copies))));
        for object in 0..1024 {
            let expected = if object < 64 * u32::from(copies) {
                (5000 + object, stamp(1, object + 1))
            } else {
                (0, 0)
            };
            assert_eq!(held(&model, 2, object), expected, "{copies} {object}");
        }
        assert_eq!(held(&model, 2, 1024), (0, 0));
        done(&mut model, &[COPY]);
    }
    assert_eq!(model.chain(), chain(&[1, 2], None));
    assert_eq!(held(&model, 2, 1023), (6023, stamp(1, 1024)));
    assert_eq!(held(&model, 2, 1024), (0, 0));
}

// ---- joins that end, and what does not end them

#[test]
fn removing_the_tail_ends_the_join() {
    let mut model = two_written();
    done(&mut model, &[JOIN, COPY, COPY]);
    assert_eq!(held(&model, 3, 100), (7, stamp(1, 2)));
    done(&mut model, &[(9, 2, 0)]);
    assert_eq!(model.chain(), chain(&[1], None));
    for replica in [2, 3] {
        assert_eq!(held(&model, replica, 5), (0, 0));
        assert_eq!(held(&model, replica, 100), (0, 0));
    }
    refused(&mut model, &[13, 0, 0], 19);
    done(&mut model, &[JOIN]); // number 3 is used up
    assert_eq!(model.chain(), chain(&[1], Some((4, 0))));
    assert_eq!(held(&model, 3, 5), (0, 0));
    assert_eq!(held(&model, 4, 5), (0, 0));
    done(&mut model, &[COPY; 16]);
    assert_eq!(model.chain(), chain(&[1, 4], None));
    assert_eq!(held(&model, 4, 100), (7, stamp(1, 2)));
}

#[test]
fn other_removals_do_not() {
    let mut model = Model::start(3).expect("three");
    done(&mut model, &[JOIN, COPY]);
    for not_live in [0, 4, 5, 255] {
        refused(&mut model, &[9, 0, 1, not_live], 9);
    }
    done(&mut model, &[(9, 2, 0), COPY, (9, 1, 0), COPY]);
    assert_eq!(model.chain(), chain(&[3], Some((4, 3))));
    refused(&mut model, &[9, 0, 1, 3], 12);
    done(&mut model, &[COPY; 13]);
    assert_eq!(model.chain(), chain(&[3, 4], None));
}

#[test]
fn the_newcomer_is_not_live() {
    let mut model = two_written();
    done(&mut model, &[JOIN]);
    for _ in 0..16 {
        for tag in [6, 8, 9] {
            refused(&mut model, &[tag, 0, 1, 3], 9); // advance, tell, remove
        }
        done(&mut model, &[COPY]);
    }
    refused(&mut model, &[6, 0, 1, 3], 10); // its link is empty
    done(&mut model, &[(8, 3, 0), (9, 3, 0)]);
    assert_eq!(model.chain(), chain(&[1, 2], None));
}

/// The permitted switch is the tail's at the sixteenth copy: a write gets its stamp
/// exactly if all permit the new switch.
#[test]
fn the_new_tail_permits_what_the_old_one_did() {
    for (told_before, stamped) in [(true, 1), (false, 0)] {
        let mut model = Model::start(1).expect("one");
        done(&mut model, &[JOIN, (7, 2, 0)]);
        if told_before {
            done(&mut model, &[(8, 1, 0)]);
        }
        done(&mut model, &[COPY; 16]);
        done(&mut model, &[(8, 1, 0), (2, 5, 9), (3, 0, 0)]);
        assert_eq!((model.waiting(), model.marks()), (stamped, stamped));
    }
}

// ---- reads at a former tail

#[test]
fn a_read_at_a_former_tail_is_sent_on() {
    let mut model = Model::start(1).expect("one");
    done(&mut model, &[(2, 5, 9), (1, 5, 0)]); // a write, and a read of its object
    done(&mut model, &[(3, 0, 0), (3, 0, 0)]); // both are for replica 1, the tail
    done(&mut model, &[JOIN]);
    done(&mut model, &[COPY; 16]);
    done(&mut model, &[(3, 0, 0)]); // replica 1 applies the write
    assert_eq!((model.value(1, 5), model.value(2, 5)), (9, 0));
    done(&mut model, &[(3, 0, 0)]); // .. and sends the read on
    assert_eq!((model.waiting(), model.marks()), (1, 1));
    let mut later = model.clone();
    done(&mut model, &[(3, 0, 0)]); // replica 2 answers it
    let old = finished(2, 0, Freshness::Old);
    assert_eq!(deliver(&mut model, 0), old);
    // or replica 2 applies the write first, and sends a reply and a completion
    done(&mut later, &[(6, 2, 0), (3, 0, 0)]);
    let new = finished(2, 9, Freshness::New);
    assert_eq!(deliver(&mut later, 2), new);
}

#[test]
fn so_is_a_read_of_several_objects() {
    let mut model = two_written();
    // the switch marks a write of object 6, so the read goes to the tail
    done(&mut model, &[(2, 6, 4), (3, 0, 0)]);
    let mut record = [0; LONGEST_RECORD];
    let size = write_context(&[100, 6, 5], &mut record).expect("a record");
    assert_eq!(model.step(&record[..size]), Answer::Done);
    done(&mut model, &[(3, 1, 0), JOIN]);
    done(&mut model, &[COPY; 16]);
    done(&mut model, &[(3, 1, 0)]); // replica 2 sends it on
    done(&mut model, &[(9, 2, 0), (9, 1, 0), (3, 1, 0)]); // replica 3 answers it
    let read = Answer::Finished {
        operation: 4,
        values: Values::of(&[7, 0, 9]),
        freshness: Freshness::None,
    };
    assert_eq!(deliver(&mut model, 1), read);
}

// ---- refusals

#[test]
fn refusals_17_18_and_19() {
    let mut model = Model::start(8).expect("eight");
    refused(&mut model, &[12, 0, 0], 17);
    refused(&mut model, &[13, 0, 0], 19);
    done(&mut model, &[(9, 3, 0), JOIN]);
    assert_eq!(model.chain(), chain(&[1, 2, 4, 5, 6, 7, 8], Some((9, 0))));
    for _ in 0..16 {
        refused(&mut model, &[12, 0, 0], 18);
        done(&mut model, &[COPY]);
    }
    assert_eq!(model.chain(), chain(&[1, 2, 4, 5, 6, 7, 8, 9], None));
    refused(&mut model, &[12, 0, 0], 17);
    refused(&mut model, &[13, 0, 0], 19);
}

#[test]
fn numbers_are_given_up_to_255() {
    let mut model = Model::start(1).expect("one");
    write(&mut model, &[1], 1, 5, 9);
    for number in 2..=255 {
        done(&mut model, &[JOIN]);
        let second = if number == 255 { 17 } else { 18 };
        refused(&mut model, &[12, 0, 0], second);
        done(&mut model, &[COPY; 16]);
        done(&mut model, &[(9, u32::from(number) - 1, 0)]);
        assert_eq!(model.chain(), chain(&[number], None));
        assert_eq!(held(&model, number, 5), (9, stamp(1, 1)));
        assert_eq!(held(&model, number - 1, 5), (0, 0));
    }
    refused(&mut model, &[12, 0, 0], 17);
    refused(&mut model, &[13, 0, 0], 19);
    // it takes packets by its number
    done(&mut model, &[(1, 5, 0), (3, 0, 255), (3, 0, 0)]);
    let read = finished(2, 9, Freshness::None);
    assert_eq!(deliver(&mut model, 0), read);
}

// ---- beside the second model

/// Asserts that the library tells of the replicas what the second model tells.
fn agree(model: &Model, second: &model::Model, random: &mut Random) {
    let newcomer = second.newcomer();
    let live: Vec<u8> = second.live().collect();
    let copies = (second.copied() / 64) as u8;
    let joining = newcomer.map(|number| (number, copies));
    assert_eq!(model.chain(), chain(&live, joining));
    let some = [0, 63, 64, 959, 960, 1023, random.below(1024) as u16];
    for replica in (0..=255).filter(|r| *r < 12 || *r > 250 || live.contains(r)) {
        for object in some {
            let (value, stamp) = held(model, replica, object.into());
            let stamp = Stamp::new((stamp >> 32) as u16, stamp as u32);
            let expected = if newcomer == Some(replica) {
                let copied = object < second.copied();
                second.held_by_newcomer(object).filter(|_| copied)
            } else {
                second.held(replica, object)
            };
            let expected = expected.unwrap_or_default();
            assert_eq!(Held { value, stamp }, expected, "{replica} {object}");
        }
    }
}

#[test]
fn replicas_are_those_of_the_second_model() {
    let mut random = Random::new(4);
    let (mut joining, mut numbers) = (0, 0);
    for seed in 0..24 {
        let file = generate("joins", seed, 6000).expect("a kind");
        let pieces = records::pieces(&file);
        let Some((Record::Start(start), _)) = records::read(pieces[0]) else {
            continue;
        };
        let mut model = Model::start_record(pieces[0]).expect("1 to 8");
        let mut second = model::Model::start(start).expect("1 to 8");
        agree(&model, &second, &mut random);
        for record in &pieces[1..] {
            let Some((Record::Step(step), _)) = records::read(record) else {
                break;
            };
            let refusal = second.step(step).err().map(|r| r.number());
            match model.step(record) {
                Answer::Refused(number) => assert_eq!(refusal, Some(number)),
                _ => assert_eq!(refusal, None),
            }
            agree(&model, &second, &mut random);
            joining += usize::from(second.newcomer().is_some());
        }
        numbers = numbers.max(second.given());
    }
    assert!(joining > 1000 && numbers > 20, "{joining} {numbers}");
}

// ---- whole runs

#[test]
fn a_whole_run_with_a_join() {
    let mut file = vec![32, 0, 1, 1];
    file.extend([13, 0, 0]);
    file.extend([12, 0, 0].repeat(2));
    file.extend([13, 0, 0].repeat(16));
    file.extend([12, 0, 1, 0]); // a wrong length ends the run
    file.extend([12, 0, 0]);
    let mut expected = "1 ok 0 0 - - -\n2 no 19\n3 ok 0 0 - - -\n4 no 18\n".to_string();
    for number in 5..21 {
        expected += &format!("{number} ok 0 0 - - -\n");
    }
    expected += "21 no 1\n";
    assert_eq!(String::from_utf8_lossy(&whole(&file)), expected);
}

/// An input of 65,536 bytes has at most 21,845 records: the start, and then
/// records of three bytes.
#[test]
fn as_many_records_as_an_input_can_have() {
    let mut file = vec![32, 0, 1, 1];
    file.extend([13, 0, 0].repeat(21_844));
    assert_eq!(file.len(), 65_536);
    let out = whole(&file);
    assert_eq!(out.iter().filter(|b| **b == b'\n').count(), 21_845);
    assert!(out.ends_with(b"\n21844 no 19\n21845 no 19\n"));
    file.push(13);
    assert_eq!(whole(&file), b"0 no 14\n");
}

#[test]
fn whole_runs_with_joins_are_the_steps_one_by_one() {
    for (kind, length) in [("joins", 65_536), ("joins", 4000), ("small-joins", 600)] {
        for seed in 0..10 {
            let file = generate(kind, seed, length).expect("a kind");
            let stepped = lines(&file).expect("no refusal 1");
            assert!(whole(&file) == stepped, "{kind} {length} {seed}");
        }
    }
}
