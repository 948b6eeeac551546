//! A leader with followers (document 02, Req 11), a test for each settled reading.

use super::*;
use crate::order::{find_order, history};
use crate::run::{output, output_by};
use crate::words::file;

fn quorum(n: u8) -> Model {
    Model::start(Start::Quorum { replicas: n }).unwrap()
}

fn acknowledgement(from: u8, entries: u64) -> Packet {
    Packet::Acknowledgement { from, entries }
}

impl Model {
    fn execute_next(&mut self) -> Answer {
        self.step(Step::Execute)
    }

    /// A follower takes an entry and its acknowledgement, the only packet, is
    /// delivered.
    fn hear_from(&mut self, replica: u8) {
        assert_eq!(self.waiting(), 0);
        assert_eq!(self.move_on(replica), OK);
        assert_eq!(self.give(0), OK);
    }

    /// A write through a majority of three, from an empty list to an empty list;
    /// replica 2 executes it too.
    fn write_through_a_majority(&mut self, object: u16, value: u32) {
        self.write_at_head(object, value);
        self.hear_from(2);
        assert_eq!(self.execute_next(), OK);
        assert_eq!(self.give(0), written(self.begun(), value));
        assert_eq!(self.give(0), OK);
        assert_eq!(self.move_on(2), OK);
    }

    fn link(&self, replica: u8) -> Vec<Item> {
        self.items(replica).collect()
    }
}

/// Reading 1: 3, 5 or 7, all live for good.
#[test]
fn sizes_of_a_quorum_store() {
    for n in 0..=255 {
        let model = Model::start(Start::Quorum { replicas: n });
        match n {
            3 | 5 | 7 => {
                let model = model.unwrap();
                assert!(model.is_quorum());
                assert_eq!(
                    model.live().collect::<Vec<_>>(),
                    (1..=n).collect::<Vec<_>>()
                );
                assert_eq!(model.majority(), usize::from(n / 2 + 1));
                assert!((1..=n).all(|r| model.permits(r) == Some(1)));
                assert_eq!((model.permits(0), model.permits(n + 1)), (None, None));
            }
            _ => assert_eq!(model.err(), Some(Refusal::BadReplicaCount), "{n}"),
        }
    }
    assert!(!model(3).is_quorum());
}

/// Reading 2: above the last logged, fewer than 64 unexecuted, no link full.
#[test]
fn the_leader_logs_in_rising_order() {
    let mut model = quorum(3);
    assert_eq!(model.write(5, 1), OK);
    assert_eq!(model.give(0), OK);
    assert_eq!(model.write(6, 2), OK);
    assert_eq!(model.give(1), OK);
    assert_eq!(model.again(1), OK);
    assert_eq!(model.give(1), OK);
    assert_eq!((model.logged(1), model.unexecuted()), (1, 1));
    (0..2).for_each(|_| assert_eq!(model.give(0), OK));
    assert_eq!((model.logged(1), model.waiting()), (1, 0));
    assert_eq!(model.value(1, 6), 0, "logged, not executed");
}

/// Reading 2: 64 entries are the most; the links are kept short meanwhile.
#[test]
fn the_log_holds_64_entries() {
    let mut model = quorum(3);
    for entry in 1..=66 {
        model.write_at_head(5, 9);
        let taken = entry <= 64;
        assert_eq!(model.unexecuted(), entry.min(64));
        for follower in [2, 3] {
            let expected = if taken {
                OK
            } else {
                no(Refusal::NothingIncoming)
            };
            assert_eq!(model.move_on(follower), expected);
            if taken {
                assert_eq!(model.give(0), OK);
            }
        }
        let operation = entry as u32;
        assert_eq!(model.step(Step::GiveUp { operation }), OK);
    }
    assert_eq!(model.execute_next(), OK);
    (0..2).for_each(|_| assert_eq!(model.give(0), OK));
    model.write_at_head(5, 9);
    assert_eq!((model.unexecuted(), model.logged(1)), (64, 65));
}

/// Reading 3: entries and executed stamps together, in the order sent, the same for
/// every follower.
#[test]
fn a_link_holds_entries_and_executed_stamps() {
    let mut model = quorum(3);
    model.write_at_head(5, 1);
    model.write_at_head(6, 2);
    model.hear_from(3);
    assert_eq!(model.execute_next(), OK);
    let [first, second] = [(1, 5, 1), (2, 6, 2)].map(|(operation, object, value)| {
        let stamp = Stamp::new(1, operation);
        Item::Entry(Write {
            operation,
            object,
            value,
            stamp,
        })
    });
    let executed = Item::Executed(Stamp::new(1, 1));
    assert_eq!(model.link(2), [first, second, executed]);
    assert_eq!(model.link(3), [second, executed]);
    assert_eq!(model.link(1), []);
    assert_eq!((model.linked(), model.coming(2)), (5, 3));
}

/// Reading 3: one full link is enough, whichever it is; 63 items are not full.
#[test]
fn a_full_link_blocks_logging_and_executing() {
    for slow in 2..=5 {
        let mut model = quorum(5);
        let others: Vec<u8> = (2..=5).filter(|&r| r != slow).collect();
        for write in 1..=32 {
            model.write_at_head(5, write);
            others.iter().for_each(|&r| model.hear_from(r));
            if write < 32 {
                assert_eq!(model.execute_next(), OK);
                (0..2).for_each(|_| assert!(model.give(0).is_ok()));
                others
                    .iter()
                    .for_each(|&r| assert_eq!(model.move_on(r), OK));
            }
        }
        assert_eq!((model.coming(slow), model.link_full()), (63, false));
        model.write_at_head(5, 33);
        assert_eq!((model.coming(slow), model.link_full()), (64, true));
        assert_eq!(model.holders(), Some(4));
        assert_eq!(model.execute_next(), no(Refusal::NoneToExecute));
        model.write_at_head(5, 34);
        assert_eq!((model.logged(1), model.unexecuted()), (33, 2));
        model.hear_from(slow);
        assert_eq!(model.execute_next(), OK);
        assert_eq!(model.coming(slow), 64);
    }
}

/// Reading 4: an entry is acknowledged, an executed stamp is not.
#[test]
fn advancing_a_follower() {
    let mut model = quorum(3);
    model.write_at_head(5, 9);
    assert_eq!(model.move_on(1), no(Refusal::NothingIncoming));
    assert_eq!(model.move_on(4), no(Refusal::NotLive));
    assert_eq!(model.move_on(0), no(Refusal::NotLive));
    assert_eq!(model.move_on(3), OK);
    assert_eq!(model.packets(), [acknowledgement(3, 1)]);
    assert_eq!((model.logged(3), model.acknowledged(3)), (1, 0));
    assert_eq!(model.move_on(3), no(Refusal::NothingIncoming));
    assert_eq!(model.give(0), OK);
    assert_eq!(model.acknowledged(3), 1);
    assert_eq!(model.execute_next(), OK);
    let before = model.packets().to_vec();
    assert_eq!(
        (model.executed(3), model.value(3, 5)),
        (Some(Stamp::ZERO), 0)
    );
    assert_eq!(model.move_on(3), OK);
    assert_eq!(model.packets(), before);
    assert_eq!(model.executed(3), Some(Stamp::new(1, 1)));
    assert_eq!(model.value(3, 5), 9);
}

/// Reading 4: 9, 10, 6; no 6 for an executed stamp.
#[test]
fn advancing_with_64_waiting() {
    let mut model = quorum(3);
    model.write_at_head(5, 9);
    model.hear_from(2);
    assert_eq!(model.execute_next(), OK);
    (0..62).for_each(|_| assert_eq!(model.again(0), OK));
    assert_eq!(model.move_on(4), no(Refusal::NotLive));
    assert_eq!(model.move_on(1), no(Refusal::NothingIncoming));
    assert_eq!(model.move_on(3), no(Refusal::TooManyWaiting));
    assert_eq!((model.logged(3), model.coming(3)), (0, 2));
    assert_eq!(model.move_on(2), OK);
    assert_eq!(model.executed(2), Some(Stamp::new(1, 1)));
    assert_eq!(model.step(Step::Lose { position: 5 }), OK);
    assert_eq!(model.move_on(3), OK);
    assert_eq!(model.waiting(), 64);
}

/// Reading 5: an acknowledgement covers what is before it and lowers nothing.
#[test]
fn acknowledgements_late_lost_and_repeated() {
    let mut model = quorum(3);
    (1..=3).for_each(|value| model.write_at_head(5, value));
    (0..3).for_each(|_| assert_eq!(model.move_on(2), OK));
    let [first, second, third] = [1, 2, 3].map(|entries| acknowledgement(2, entries));
    assert_eq!(model.packets(), [first, second, third]);
    assert_eq!(model.again(0), OK);
    assert_eq!(model.give(1), OK);
    assert_eq!((model.acknowledged(2), model.holders()), (2, Some(2)));
    assert_eq!(model.packets(), [first, third, first]);
    (0..2).for_each(|position| assert_eq!(model.give(2 * (1 - position)), OK));
    assert_eq!(model.acknowledged(2), 2);
    assert_eq!(model.step(Step::Lose { position: 0 }), OK);
    (0..2).for_each(|_| assert_eq!(model.execute_next(), OK));
    assert_eq!(model.execute_next(), no(Refusal::NoneToExecute));
    assert_eq!((model.holders(), model.unexecuted()), (Some(1), 1));
}

/// Reading 6: more than half, the leader counted, by what it has heard.
#[test]
fn a_majority_with_the_leader() {
    for n in SIZES {
        let mut model = quorum(n);
        assert_eq!(model.execute_next(), no(Refusal::NoneToExecute));
        model.write_at_head(5, 9);
        for follower in 2..=n / 2 + 1 {
            assert_eq!(model.holders(), Some(usize::from(follower) - 1));
            assert_eq!(model.move_on(follower), OK);
            assert_eq!(model.execute_next(), no(Refusal::NoneToExecute));
            assert_eq!(model.give(0), OK);
        }
        assert_eq!(model.holders(), Some(usize::from(n / 2 + 1)));
        assert_eq!(model.execute_next(), OK);
        assert_eq!(model.execute_next(), no(Refusal::NoneToExecute));
    }
}

/// Reading 6: reply and completion in that order, then the stamp in every link.
#[test]
fn what_executing_does() {
    let mut model = quorum(3);
    model.write_at_head(5, 9);
    model.hear_from(3);
    assert_eq!(model.execute_next(), OK);
    let stamp = Stamp::new(1, 1);
    let reply = plain_reply(1, &[9], Way::Write);
    let completion = Packet::Completion { object: 5, stamp };
    assert_eq!(model.packets(), [reply, completion]);
    assert_eq!((model.value(1, 5), model.stamp(1, 5)), (9, stamp));
    assert_eq!((model.executed(1), model.unexecuted()), (Some(stamp), 0));
    assert_eq!(model.link(3), [Item::Executed(stamp)]);
    assert_eq!(model.coming(2), 2);
    assert_eq!(model.value(3, 5), 0);
}

/// Reading 6: 24 before 6; 62 waiting leave room.
#[test]
fn executing_with_a_full_list() {
    let mut model = quorum(3);
    model.write_at_head(5, 9);
    (0..63).for_each(|_| assert_eq!(model.read(6), OK));
    assert_eq!(model.step(Step::GiveUp { operation: 1 }), OK);
    assert_eq!(model.read(6), OK);
    assert_eq!(model.waiting(), 64);
    assert_eq!(model.execute_next(), no(Refusal::NoneToExecute));
    assert_eq!(model.step(Step::Lose { position: 0 }), OK);
    assert_eq!(model.move_on(2), OK);
    assert_eq!(model.give(63), OK);
    assert_eq!(model.waiting(), 63);
    assert_eq!(model.execute_next(), no(Refusal::TooManyWaiting));
    assert_eq!(
        (model.unexecuted(), model.executed(1)),
        (1, Some(Stamp::ZERO))
    );
    assert_eq!(model.step(Step::Lose { position: 0 }), OK);
    assert_eq!(model.execute_next(), OK);
    assert_eq!(model.waiting(), 64);
}

/// Reading 7: 23 before any other, and nothing changes.
#[test]
fn steps_of_the_other_store() {
    let mut model = quorum(7);
    model.write_at_head(5, 9);
    for step in [
        Step::Remove { replica: 2 },
        Step::Remove { replica: 9 },
        Step::Join,
        Step::Copy,
    ] {
        assert_eq!(model.step(step), no(Refusal::NotInThisStore));
    }
    assert_eq!((model.live().len(), model.newcomer()), (7, None));
    for n in 1..=8 {
        let mut chain = self::model(n);
        assert_eq!(chain.execute_next(), no(Refusal::NotInThisStore));
        (0..64).for_each(|_| assert_eq!(chain.read(5), OK));
        assert_eq!(chain.execute_next(), no(Refusal::NotInThisStore));
    }
}

/// Reading 7: each follower's permit is needed.
#[test]
fn a_write_needs_every_permit() {
    for missing in 1..=5 {
        let mut model = quorum(5);
        assert_eq!(model.step(Step::Replace { switch: 4 }), OK);
        let tell = |replica| Step::Tell { replica };
        for replica in (1..=5).filter(|&r| r != missing) {
            assert_eq!(model.step(tell(replica)), OK);
        }
        assert_eq!(model.step(tell(6)), no(Refusal::NotLive));
        assert_eq!(model.write(5, 9), OK);
        assert_eq!(model.give(0), OK);
        assert_eq!(model.waiting(), 0);
        assert_eq!(model.step(tell(missing)), OK);
        model.write_at_head(5, 9);
        assert_eq!(model.logged(1), 1);
    }
}

/// Reading 8: by the whole replica's executed stamp, not by the object's; the
/// leader too.
#[test]
fn a_direct_read_by_the_executed_stamp() {
    for objects in [&[5][..], &[6], &[6, 5]] {
        for (choice, lags) in [(0, false), (1, false), (2, true)] {
            let mut model = quorum(3);
            model.write_through_a_majority(5, 9);
            let answer = match objects {
                &[object] => model.read(object),
                objects => model.context(objects),
            };
            assert_eq!(answer, OK);
            assert_eq!(model.give_to(0, choice), OK);
            let values: Vec<u32> = objects.iter().map(|&o| model.value(1, o)).collect();
            let way = match lags {
                true => {
                    assert_eq!(model.give(0), OK);
                    let normal = plain_read(1, 2, objects, Way::SentOn);
                    assert_eq!(model.packets(), [normal]);
                    Way::SentOn
                }
                false => Way::Direct,
            };
            assert_eq!(model.give(0), OK);
            assert_eq!(model.packets(), [plain_reply(2, &values, way)]);
            assert_eq!(model.give(0), done(2, &values, way));
        }
    }
}

/// Reading 8: a value above the stamp carried is no reason to send a read on.
#[test]
fn a_direct_read_answered_with_a_later_write() {
    let mut model = quorum(3);
    model.write_through_a_majority(5, 9);
    assert_eq!(model.read(5), OK);
    assert_eq!(model.give_to(0, 1), OK);
    assert_eq!(model.write(5, 8), OK);
    (0..2).for_each(|_| assert_eq!(model.give(1), OK));
    assert_eq!(model.move_on(2), OK);
    assert_eq!(model.give(1), OK);
    assert_eq!(model.execute_next(), OK);
    assert_eq!(model.again(0), OK);
    assert_eq!(model.give(0), OK);
    assert_eq!(model.packets()[3], plain_reply(2, &[9], Way::Direct));
    assert_eq!(model.move_on(2), OK);
    assert_eq!(model.give(2), OK);
    assert_eq!(model.packets()[3], plain_reply(2, &[8], Way::Direct));
}

/// Reading 8: only the switch that the replica permits.
#[test]
fn a_direct_read_of_a_former_switch() {
    let mut model = quorum(3);
    model.write_through_a_majority(5, 9);
    assert_eq!(model.read(5), OK);
    assert_eq!(model.give_to(0, 1), OK);
    assert_eq!(model.again(0), OK);
    assert_eq!(model.step(Step::Replace { switch: 2 }), OK);
    assert_eq!(model.give(0), OK, "still permitted");
    assert_eq!(model.packets()[1], plain_reply(2, &[9], Way::Direct));
    assert_eq!(model.step(Step::Tell { replica: 2 }), OK);
    assert_eq!(model.give(0), OK);
    assert_eq!(model.packets()[1], plain_read(1, 2, &[5], Way::SentOn));
}

/// Reading 8 and Req 01: the leader stands for the tail, and answers from what it
/// has executed.
#[test]
fn old_and_new_at_the_leader() {
    let mut model = quorum(3);
    model.write_at_head(5, 9);
    model.hear_from(2);
    assert_eq!(model.read(5), OK);
    assert_eq!(model.give_to(0, 2), OK);
    let mark = Some(Stamp::new(1, 1));
    assert_eq!(carried(&model, 0), mark);
    assert_eq!(model.again(0), OK);
    assert_eq!(model.give(0), OK);
    assert_eq!(model.execute_next(), OK);
    assert_eq!(model.give(1), aged(2, 0, Age::Old));
    assert_eq!(model.read(5), OK);
    assert_eq!(model.give(3), OK);
    assert_eq!(model.give(3), OK);
    assert_eq!(model.give(3), aged(3, 9, Age::New));
}

/// Reading 9: give-ups and the count of marks are as in a chain.
#[test]
fn a_write_given_up_is_executed_and_completed() {
    let mut model = quorum(3);
    model.write_at_head(5, 9);
    model.write_at_head(6, 8);
    assert_eq!(model.counting_marks(), 2);
    assert_eq!(model.step(Step::GiveUp { operation: 1 }), OK);
    (0..2).for_each(|_| model.hear_from(2));
    (0..2).for_each(|_| assert_eq!(model.execute_next(), OK));
    assert_eq!(model.give(0), OK, "no longer open");
    assert_eq!(model.give(2), OK);
    assert_eq!(model.counting_marks(), 0, "one completion stops both");
    assert_eq!(model.value(1, 5), 9);
}

/// A lagging follower is asked: once answered, once sent on.
const LAGGING: &str = "start-quorum 3; write 5 9; 2 * deliver 0; advance 2; deliver 0; execute; \
    2 * deliver 0; advance 2; write 6 8; 2 * deliver 0; advance 2; deliver 0; execute; read 5; \
    deliver 2 1; 2 * deliver 2; deliver 1; read 6; deliver 1 1; 3 * deliver 1";

#[test]
fn a_lagging_follower_answers_and_sends_on() {
    let input = file(LAGGING);
    let mut ways = Vec::new();
    let lines = output_by(&input, |model, step| {
        let answer = model.step(step);
        if let Ok(Some(finished)) = answer {
            assert!(finished.operation < 3 || model.executed(2) < model.executed(1));
            ways.push((finished.operation, finished.way));
        }
        answer
    });
    assert_eq!(ways, [(1, Way::Write), (3, Way::Direct), (4, Way::SentOn)]);
    let text = String::from_utf8(lines.clone()).unwrap();
    assert!(text.contains("\n20 ok 2 1 3 9 -\n") && text.ends_with("\n26 ok 1 0 4 8 -\n"));
    assert!(find_order(&history(&input, &lines).unwrap()).is_some());
}

/// Why Req 10 is needed: with direct reads turned on by the completion of the first
/// write, which the former switch stamped, a follower that has not executed the
/// second, finished write answers a read of its object.
#[test]
fn a_former_switch_s_completion_over_a_quorum() {
    let input = file(
        "start-quorum 3; write 5 9; 2 * deliver 0; advance 2; deliver 0; execute; advance 2; \
         deliver 0; write 5 8; 2 * deliver 1; advance 2; deliver 1; execute; deliver 1; replace 2; \
         tell 1; tell 2; tell 3; deliver 0; read 5; deliver 1 1; 2 * deliver 1",
    );
    let early = |model: &mut Model, step: Step| {
        let answer = model.step(step);
        if model.switch_number() == 2 && model.last_committed() > Stamp::ZERO {
            model.falsify_direct_reads();
        }
        answer
    };
    let (lines, without) = (output(&input), output_by(&input, early));
    let last = |lines: &[u8]| {
        let text = String::from_utf8(lines.to_vec()).unwrap();
        text.lines().last().unwrap().to_string()
    };
    assert_eq!(last(&lines), "25 ok 1 0 3 8 -");
    assert_eq!(last(&without), "25 ok 1 0 3 9 -");
    assert!(find_order(&history(&input, &lines).unwrap()).is_some());
    assert_eq!(find_order(&history(&input, &without).unwrap()), None);
}
