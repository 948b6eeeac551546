//! Quorum stores (document 02, Req 11): starts and records, what each replica has
//! logged, executed and acknowledged, direct reads at followers that lag, and
//! refusals 23 and 24.

use super::{deliver, done, finished, line, lines, refused, stamp, step, whole};
use second_model::generate::{generate, Random};
use second_model::model::{self, Held, Stamp};
use second_model::records::{self, Record};
use second_model::run::output;
use woldladle::{
    record_length, write_context, write_record, Answer, Chain, Freshness, Model, Positions, Values,
    LONGEST_LINE, LONGEST_RECORD,
};

const EXECUTE: (u8, u32, u32) = (14, 0, 0);
const KINDS: [&str; 5] = [
    "quorum",
    "quorum-full",
    "quorum-acks",
    "quorum-replacements",
    "small-quorum",
];

/// How far a replica is.
fn at(logged: u32, executed: u32, acknowledged: u32) -> Option<Positions> {
    Some(Positions {
        logged,
        executed,
        acknowledged,
    })
}

/// Value and stamp of an object at a replica.
fn held(model: &Model, replica: u8, object: u32) -> (u32, u64) {
    (model.value(replica, object), model.stamp(replica, object))
}

fn started(n: u8) -> Model {
    Model::start_quorum(n).expect("3, 5 or 7")
}

/// Begins a write and takes it to the leader, while other packets may wait.
fn log(model: &mut Model, object: u32, value: u32) {
    let last = model.waiting() as u32;
    done(model, &[(2, object, value), (3, last, 0), (3, last, 0)]);
    assert_eq!(model.waiting() as u32, last);
}

/// A follower takes all that its link holds, and its acknowledgements are delivered.
fn catch_up(model: &mut Model, replica: u8) {
    let waiting = model.waiting();
    loop {
        match step(model, 6, replica.into(), 0) {
            Answer::Refused(10) => return,
            answer => assert_eq!(answer, Answer::Done),
        }
        if model.waiting() > waiting {
            done(model, &[(3, waiting as u32, 0)]);
        }
    }
}

// ---- starts and records

#[test]
fn starts_of_3_5_and_7_stand() {
    let refusals = (0..=255).map(|n| Model::start_quorum(n).err().unwrap_or(0));
    let expected = (0..=255).map(|n| if [3, 5, 7].contains(&n) { 0 } else { 2 });
    assert!(refusals.eq(expected));
    for n in [3, 5, 7] {
        let model = started(n);
        let expected = Chain {
            live: (1..=n).collect(),
            newcomer: None,
        };
        assert_eq!(model.chain(), expected);
        for replica in 0..=255 {
            let expected = if (1..=n).contains(&replica) {
                at(0, 0, 0)
            } else {
                None
            };
            assert_eq!(model.positions(replica), expected, "{n} {replica}");
            assert_eq!(held(&model, replica, 5), (0, 0));
        }
        assert_eq!(line(&model, 1), "1 ok 0 0 - - -\n");
    }
}

#[test]
fn a_chain_has_no_positions() {
    for n in 1..=8 {
        let mut model = Model::start(n).expect("1 to 8");
        done(&mut model, &[(2, 5, 9), (3, 0, 0), (3, 0, 0)]);
        assert!((0..=255).all(|replica| model.positions(replica).is_none()));
    }
}

#[test]
fn records_of_tags_14_and_33() {
    assert_eq!((record_length(14), record_length(33)), (3, 4));
    for (tag, first, bytes) in [
        (14, 0, &[14, 0, 0][..]),
        (33, 5, &[33, 0, 1, 5]),
        (33, 255, &[33, 0, 1, 255]), // the start refuses it, and the writer does not
    ] {
        for room in 0..8 {
            let mut out = vec![0xaa; room];
            let (answer, written) = if room < bytes.len() {
                (Err(15), &[][..])
            } else {
                (Ok(bytes.len()), bytes)
            };
            assert_eq!(write_record(tag, first, 0, &mut out), answer, "{room}");
            assert_eq!(out[..written.len()], *written);
            assert!(out[written.len()..].iter().all(|b| *b == 0xaa), "{room}");
        }
    }
    for (tag, first, second) in [(14, 1, 0), (14, 0, 1), (33, 256, 0), (33, 3, 1)] {
        let mut out = [0xaa; LONGEST_RECORD];
        assert_eq!(write_record(tag, first, second, &mut out), Err(1));
        assert_eq!(out, [0xaa; LONGEST_RECORD]);
    }
}

#[test]
fn another_length_and_a_second_start_are_refused_by_1() {
    for mut model in [Model::start(3).expect("three"), started(3)] {
        for record in [
            &[14][..],
            &[14, 0],
            &[14, 0, 0, 0],
            &[14, 0, 1],
            &[14, 0, 1, 0],
            &[14, 1, 0],
            &[33, 0, 1, 3],
            &[32, 0, 1, 3],
        ] {
            refused(&mut model, record, 1);
        }
    }
}

// ---- what each replica has

#[test]
fn a_write_is_logged_acknowledged_and_executed() {
    let mut model = started(3);
    log(&mut model, 5, 9);
    assert_eq!(line(&model, 4), "4 ok 0 1 - - -\n");
    assert_eq!(model.positions(1), at(1, 0, 0));
    assert_eq!(model.positions(2), at(0, 0, 0));
    refused(&mut model, &[14, 0, 0], 24); // the leader alone is no majority
    done(&mut model, &[(6, 2, 0)]);
    assert_eq!(model.positions(2), at(1, 0, 0));
    assert_eq!(model.waiting(), 1); // the acknowledgement, which is not heard of yet
    refused(&mut model, &[14, 0, 0], 24);
    done(&mut model, &[(5, 0, 0), (3, 0, 0)]); // it is repeated, and delivered once
    assert_eq!(model.positions(2), at(1, 0, 1));
    for replica in 1..=3 {
        assert_eq!(held(&model, replica, 5), (0, 0));
    }
    done(&mut model, &[EXECUTE]);
    assert_eq!(line(&model, 9), "9 ok 3 1 - - -\n");
    assert_eq!(model.positions(1), at(1, 1, 0));
    assert_eq!(held(&model, 1, 5), (9, stamp(1, 1)));
    assert_eq!(held(&model, 2, 5), (0, 0));
    refused(&mut model, &[14, 0, 0], 24); // nothing is left to execute
    assert_eq!(deliver(&mut model, 1), finished(1, 9, Freshness::None));
    done(&mut model, &[(3, 1, 0), (3, 0, 0)]); // the completion, and the other acknowledgement
    assert_eq!((model.waiting(), model.marks()), (0, 0));
    assert_eq!(model.positions(2), at(1, 0, 1));
    done(&mut model, &[(6, 2, 0)]); // the executed stamp, which brings no packet
    assert_eq!(model.waiting(), 0);
    assert_eq!(model.positions(2), at(1, 1, 1));
    assert_eq!(held(&model, 2, 5), (9, stamp(1, 1)));
    refused(&mut model, &[6, 0, 1, 2], 10); // its link is empty
    refused(&mut model, &[6, 0, 1, 1], 10); // the leader is the head
    refused(&mut model, &[6, 0, 1, 4], 9);
    done(&mut model, &[(6, 3, 0), (4, 0, 0)]); // this acknowledgement is lost
    assert_eq!(model.positions(3), at(1, 0, 0));
    done(&mut model, &[(6, 3, 0)]);
    assert_eq!(model.positions(3), at(1, 1, 0));
    assert_eq!(held(&model, 3, 5), (9, stamp(1, 1)));
}

#[test]
fn a_later_acknowledgement_covers_earlier_ones_and_a_late_one_lowers_nothing() {
    let mut model = started(3);
    log(&mut model, 5, 9);
    log(&mut model, 6, 8);
    done(&mut model, &[(6, 2, 0), (6, 2, 0), (3, 1, 0)]);
    assert_eq!(model.positions(2), at(2, 0, 2));
    done(&mut model, &[(3, 0, 0)]); // the late one, for one entry
    assert_eq!(model.positions(2), at(2, 0, 2));
    done(&mut model, &[EXECUTE, EXECUTE]);
    assert_eq!(model.positions(1), at(2, 2, 0));
}

#[test]
fn more_than_half_are_needed() {
    for n in [3, 5, 7] {
        let mut model = started(n);
        log(&mut model, 5, 9);
        for follower in 0..n / 2 {
            refused(&mut model, &[14, 0, 0], 24);
            catch_up(&mut model, n - follower);
        }
        done(&mut model, &[EXECUTE]);
        assert_eq!(deliver(&mut model, 0), finished(1, 9, Freshness::None));
        assert_eq!(model.value(1, 5), 9);
    }
}

#[test]
fn the_log_holds_64_that_are_not_executed() {
    let mut model = started(3);
    for count in 1..=66 {
        log(&mut model, 5, 9);
        done(&mut model, &[(10, count, 0)]);
        let entries = count.min(64);
        assert_eq!(model.positions(1), at(entries, 0, 0));
        if count <= 64 {
            for follower in [2, 3] {
                done(&mut model, &[(6, follower, 0), (4, 0, 0)]);
            }
        }
    }
    for follower in [2, 3] {
        assert_eq!(model.positions(follower), at(64, 0, 0));
        refused(&mut model, &[6, 0, 1, follower], 10);
    }
}

#[test]
fn a_full_link_holds_up_logging_and_executing() {
    let mut model = started(3);
    for count in 1..=31 {
        log(&mut model, 5, count);
        catch_up(&mut model, 2);
        done(&mut model, &[EXECUTE]);
        assert_eq!(
            deliver(&mut model, 0),
            finished(count, count, Freshness::None)
        );
        done(&mut model, &[(3, 0, 0)]);
    }
    log(&mut model, 5, 90);
    log(&mut model, 5, 91); // replica 3's link now holds 33 entries and 31 stamps
    catch_up(&mut model, 2);
    log(&mut model, 5, 92); // so this one is dropped,
    assert_eq!(model.positions(1), at(33, 31, 0));
    assert_eq!(model.positions(2), at(33, 31, 33));
    refused(&mut model, &[14, 0, 0], 24); // .. and nothing is executed
    done(&mut model, &[(6, 3, 0), EXECUTE]);
    assert_eq!(model.positions(1), at(33, 32, 0));
    assert_eq!(model.positions(3), at(1, 0, 0));
    refused(&mut model, &[14, 0, 0], 24);
}

// ---- direct reads

/// The leader has executed the write of 9 to object 5 and that of 8 to object 6,
/// and replica 2 the first alone, of which it has all acknowledged. The second one's
/// reply and completion wait.
fn lagging() -> Model {
    let mut model = started(3);
    log(&mut model, 5, 9);
    catch_up(&mut model, 2);
    done(&mut model, &[EXECUTE]);
    assert_eq!(deliver(&mut model, 0), finished(1, 9, Freshness::None));
    done(&mut model, &[(3, 0, 0)]);
    catch_up(&mut model, 2);
    log(&mut model, 6, 8);
    catch_up(&mut model, 3);
    done(&mut model, &[EXECUTE]);
    assert_eq!(model.positions(1), at(2, 2, 0));
    assert_eq!(model.positions(2), at(1, 1, 1));
    assert_eq!(model.positions(3), at(2, 1, 2));
    assert_eq!((model.waiting(), model.marks()), (2, 1));
    model
}

#[test]
fn a_follower_that_lags_answers_up_to_what_it_has_executed() {
    let mut model = lagging();
    done(&mut model, &[(1, 5, 0), (3, 2, 1), (3, 2, 0)]); // replica 2 answers
    assert_eq!(deliver(&mut model, 2), finished(3, 9, Freshness::None));
    assert_eq!(deliver(&mut model, 0), finished(2, 8, Freshness::None));
    done(&mut model, &[(3, 0, 0)]);
    for (object, value, operation) in [(6, 8, 4), (5, 9, 5)] {
        done(&mut model, &[(1, object, 0), (3, 0, 1), (3, 0, 0)]); // .. sends on
        done(&mut model, &[(3, 0, 0)]); // and the leader answers
        let read = finished(operation, value, Freshness::None);
        assert_eq!(deliver(&mut model, 0), read);
    }
    done(&mut model, &[(1, 6, 0), (3, 0, 0), (3, 0, 0)]); // the leader, at once
    assert_eq!(deliver(&mut model, 0), finished(6, 8, Freshness::None));
    catch_up(&mut model, 2);
    done(&mut model, &[(1, 6, 0), (3, 0, 1), (3, 0, 0)]); // now replica 2 answers
    assert_eq!(deliver(&mut model, 0), finished(7, 8, Freshness::None));
}

#[test]
fn so_it_is_with_several_objects() {
    let mut record = [0; LONGEST_RECORD];
    let size = write_context(&[7, 5], &mut record).expect("a record");
    let read = |operation| Answer::Finished {
        operation,
        values: Values::of(&[0, 9]),
        freshness: Freshness::None,
    };
    let mut model = lagging();
    assert_eq!(model.step(&record[..size]), Answer::Done);
    done(&mut model, &[(3, 2, 1), (3, 2, 0)]);
    assert_eq!(deliver(&mut model, 2), read(3));
    done(&mut model, &[(3, 1, 0)]); // the completion of the second write
    assert_eq!(model.step(&record[..size]), Answer::Done);
    done(&mut model, &[(3, 1, 1), (3, 1, 0), (3, 1, 0)]);
    assert_eq!(deliver(&mut model, 1), read(4));
}

#[test]
fn the_leader_stands_for_the_tail_with_old_and_new() {
    let mut model = started(3);
    log(&mut model, 5, 9);
    catch_up(&mut model, 2);
    done(&mut model, &[(1, 5, 0), (1, 5, 0), (3, 0, 0), (3, 0, 0)]);
    done(&mut model, &[(3, 0, 0), EXECUTE, (3, 0, 0)]); // one answered before, one after
    assert_eq!(deliver(&mut model, 0), finished(2, 0, Freshness::Old));
    assert_eq!(deliver(&mut model, 2), finished(3, 9, Freshness::New));
}

// ---- refusals

#[test]
fn refusal_23_comes_before_any_other() {
    for n in [3, 5, 7] {
        let mut model = started(n);
        for replica in [0, 1, n, n + 1, 255] {
            refused(&mut model, &[9, 0, 1, replica], 23);
        }
        refused(&mut model, &[12, 0, 0], 23);
        refused(&mut model, &[13, 0, 0], 23);
        done(&mut model, &[(8, n.into(), 0), (2, 5, 9), (3, 0, 0)]);
    }
    for n in 1..=8 {
        let mut model = Model::start(n).expect("1 to 8");
        refused(&mut model, &[14, 0, 0], 23);
        done(&mut model, &[(1, 5, 0)]);
        done(&mut model, &[(5, 0, 0); 63]);
        refused(&mut model, &[14, 0, 0], 23);
    }
}

#[test]
fn refusal_24_comes_before_6() {
    let mut model = started(3);
    done(&mut model, &[(1, 6, 0)]);
    done(&mut model, &[(5, 0, 0); 63]);
    refused(&mut model, &[14, 0, 0], 24); // nothing is logged
    let mut model = started(3);
    log(&mut model, 5, 9);
    catch_up(&mut model, 2);
    done(&mut model, &[(1, 6, 0)]);
    done(&mut model, &[(5, 0, 0); 63]);
    refused(&mut model, &[14, 0, 0], 6);
    refused(&mut model, &[6, 0, 1, 3], 6); // an entry, whose acknowledgement has no place
    done(&mut model, &[(4, 0, 0)]);
    refused(&mut model, &[14, 0, 0], 6); // 63 wait
    done(&mut model, &[(4, 0, 0), EXECUTE]);
    assert_eq!(model.waiting(), 64);
    done(&mut model, &[(6, 2, 0)]); // an executed stamp needs none
}

// ---- beside the second model

/// Asserts that the library tells of the replicas what the second model tells.
/// `executed` are the stamps that the leader has executed, in order.
fn agree(model: &Model, second: &model::Model, executed: &[Stamp], objects: &[u16]) {
    assert_eq!(model.chain().live, second.live().collect::<Vec<u8>>());
    assert_eq!(model.chain().newcomer, None);
    for replica in (0..=9).chain([255]) {
        let positions = second.executed(replica).map(|last| Positions {
            logged: second.logged(replica) as u32,
            executed: executed.iter().filter(|s| **s <= last).count() as u32,
            acknowledged: second.acknowledged(replica) as u32,
        });
        assert_eq!(model.positions(replica), positions, "{replica}");
        for object in objects {
            let (value, stamp) = held(model, replica, u32::from(*object));
            let stamp = Stamp::new((stamp >> 32) as u16, stamp as u32);
            let expected = second.held(replica, *object).unwrap_or_default();
            assert_eq!(Held { value, stamp }, expected, "{replica} {object}");
        }
    }
}

#[test]
fn replicas_are_those_of_the_second_model() {
    let mut random = Random::new(4);
    let (mut behind, mut unheard) = (0, 0);
    for (kind, seed) in KINDS.iter().flat_map(|k| (0..6).map(move |s| (k, s))) {
        let file = generate(kind, seed, 6000).expect("a kind");
        let pieces = records::pieces(&file);
        let Some((Record::Start(start), _)) = records::read(pieces[0]) else {
            panic!("{kind} {seed}");
        };
        let mut model = Model::start_record(pieces[0]).expect("a start");
        let mut second = model::Model::start(start).expect("a start");
        let (mut executed, mut written) = (Vec::new(), vec![0, 1023]);
        for record in &pieces[1..] {
            let Some((Record::Step(step), _)) = records::read(record) else {
                break;
            };
            if let model::Step::Write { object, .. } = step {
                written.push(object);
            }
            let answer = second.step(step);
            if answer.is_ok() && step == model::Step::Execute {
                executed.extend(second.executed(1));
            }
            match model.step(record) {
                Answer::Refused(number) => {
                    assert_eq!(answer.err().map(|r| r.number()), Some(number))
                }
                _ => assert!(answer.is_ok(), "{kind} {seed}"),
            }
            let some = [random.one_of(&written), random.one_of(&written), 1024];
            agree(&model, &second, &executed, &some);
            let followers = || 2..=second.live().len() as u8;
            behind += followers()
                .filter(|f| second.executed(*f) < second.executed(1))
                .count();
            unheard += followers()
                .filter(|f| second.acknowledged(*f) < second.logged(*f))
                .count();
        }
    }
    assert!(behind > 1000 && unheard > 1000, "{behind} {unheard}");
}

#[test]
fn whole_runs_are_the_steps_one_by_one() {
    for (kind, length) in KINDS.iter().flat_map(|k| [(k, 65_536), (k, 3000)]) {
        for seed in 10..16 {
            let file = generate(kind, seed, length).expect("a kind");
            let expected = output(&file);
            assert!(whole(&file) == expected, "{kind} {length} {seed}");
            let stepped = lines(&file).expect("no refusal 1");
            assert!(stepped == expected, "{kind} {length} {seed}, by steps");
        }
    }
}

/// Whatever was lent held a run of one store, a start of the other leaves nothing
/// of it.
#[test]
fn a_store_of_the_other_kind_takes_its_place() {
    for (before, kind) in [
        ("joins", "quorum"),
        ("full-links", "quorum-full"),
        ("quorum-full", "contexts"),
        ("quorum-acks", "joins"),
        ("quorum", "quorum-acks"),
    ] {
        let before = generate(before, 3, 20_000).expect("a kind");
        let file = generate(kind, 5, 20_000).expect("a kind");
        let (before, pieces) = (records::pieces(&before), records::pieces(&file));
        let mut model = Model::start_record(before[0]).expect("a start");
        for record in &before[1..] {
            model.step(record);
        }
        assert_eq!(model.restart_record(pieces[0]), Ok(()), "{kind}");
        let mut out = b"1 ok 0 0 - - -\n".to_vec();
        let mut line = [0; LONGEST_LINE];
        for (number, record) in (2..).zip(&pieces[1..]) {
            model.step(record);
            let size = model.line(number, &mut line);
            out.extend_from_slice(&line[..size]);
        }
        assert!(out == output(&file), "{kind}");
    }
}
