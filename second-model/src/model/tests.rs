//! The rules of document 01, and of Req 01, Req 02, Req 04, Req 07 and Req 11 of
//! document 02, at the level of single steps, worked out by hand.

mod joins;
mod quorum;
mod soaks;

use super::*;

const OK: Answer = Ok(None);

fn model(n: u8) -> Model {
    Model::start(Start::Chain { replicas: n }).unwrap()
}

fn no(refusal: Refusal) -> Answer {
    Err(refusal)
}

/// A write finished.
fn written(operation: u32, value: u32) -> Answer {
    done(operation, &[value], Way::Write)
}

/// An operation finished with these values, in this way, by a reply that
/// carries nothing.
fn done(operation: u32, values: &[u32], way: Way) -> Answer {
    Ok(Some(Finished {
        operation,
        values: Few::new(values),
        age: Age::None,
        way,
    }))
}

/// A read that the switch sent to the tail finished with this age.
fn aged(operation: u32, value: u32, age: Age) -> Answer {
    Ok(Some(Finished {
        operation,
        values: Few::one(value),
        age,
        way: Way::Tail,
    }))
}

/// A reply that carries nothing.
fn plain_reply(operation: u32, values: &[u32], way: Way) -> Packet {
    Packet::Reply {
        operation,
        values: Few::new(values),
        carried: None,
        age: Age::None,
        way,
    }
}

/// A normal read that carries nothing.
fn plain_read(to: u8, operation: u32, objects: &[u16], way: Way) -> Packet {
    Packet::NormalRead {
        to,
        operation,
        objects: Few::new(objects),
        carried: None,
        way,
    }
}

/// Short names for the steps.
impl Model {
    fn read(&mut self, object: u16) -> Answer {
        self.step(Step::Read { object })
    }

    fn context(&mut self, objects: &[u16]) -> Answer {
        let objects = Few::new(objects);
        self.step(Step::Context { objects })
    }

    fn write(&mut self, object: u16, value: u32) -> Answer {
        self.step(Step::Write { object, value })
    }

    fn give(&mut self, position: u16) -> Answer {
        self.step(Step::Deliver {
            position,
            choice: 0,
        })
    }

    fn give_to(&mut self, position: u16, choice: u8) -> Answer {
        self.step(Step::Deliver { position, choice })
    }

    fn again(&mut self, position: u16) -> Answer {
        self.step(Step::Repeat { position })
    }

    fn move_on(&mut self, replica: u8) -> Answer {
        self.step(Step::Advance { replica })
    }

    /// A write through the switch, delivered to the head.
    fn write_at_head(&mut self, object: u16, value: u32) {
        assert_eq!(self.write(object, value), OK);
        let last = self.waiting() as u16 - 1;
        assert_eq!(self.give(last), OK);
        assert_eq!(self.give(last), OK);
    }

    /// A write through a chain of two, from an empty list to an empty list.
    fn write_through(&mut self, object: u16, value: u32) {
        assert_eq!(self.waiting(), 0);
        self.write_at_head(object, value);
        assert_eq!(self.move_on(2), OK);
        assert_eq!(self.give(0), written(self.begun(), value));
        assert_eq!(self.give(0), OK);
    }

    fn stamp(&self, replica: u8, object: u16) -> Stamp {
        self.held(replica, object).unwrap().stamp
    }

    fn value(&self, replica: u8, object: u16) -> u32 {
        self.held(replica, object).unwrap().value
    }
}

#[test]
fn p1_stamps_compare_by_switch_number_first() {
    assert!(Stamp::new(1, 65_535) < Stamp::new(2, 1));
    assert!(Stamp::new(1, 65_535) < Stamp::new(1, 65_536));
    assert!(Stamp::new(1, 4_294_967_295) < Stamp::new(2, 0));
    assert_eq!(Stamp::new(65_535, 4_294_967_295).switch(), 65_535);
    assert!(Stamp::new(1, 3) < Stamp::new(1, 4));
    assert!(Stamp::ZERO < Stamp::new(0, 1));
}

#[test]
fn p2_objects() {
    let mut model = model(1);
    assert_eq!(model.write(1023, 1), OK);
    assert_eq!(model.write(1024, 1), no(Refusal::BadObject));
    assert_eq!(model.read(1024), no(Refusal::BadObject));
    assert_eq!((model.waiting(), model.begun(), model.open()), (1, 1, 1));
}

#[test]
fn p3_starts() {
    let refused = |n| Model::start(Start::Chain { replicas: n }).err();
    assert_eq!(refused(0), Some(Refusal::BadReplicaCount));
    assert_eq!(refused(9), Some(Refusal::BadReplicaCount));
    assert_eq!(model(1).live().collect::<Vec<_>>(), [1]);
    assert_eq!(model(8).live().len(), 8);
    assert_eq!(model(8).permits(8), Some(1));
    let empty = model(2).held(2, 1023);
    assert_eq!(empty, Some(Held::default()));
    assert_eq!(model(2).held(3, 0), None);
}

#[test]
fn p6_direct_read_against_the_object_s_stamp() {
    for (carried, kind) in [(4, "reply"), (3, "normal")] {
        let mut model = model(2);
        (1..=3).for_each(|value| model.write_through(5, value));
        if carried == 4 {
            model.write_through(5, 4);
        }
        assert_eq!(model.read(5), OK);
        assert_eq!(model.give_to(0, 0), OK);
        if carried == 3 {
            model.write_at_head(5, 4);
        }
        assert_eq!(model.stamp(1, 5), Stamp::new(1, 4));
        assert_eq!(model.give(0), OK);
        let expected = match kind {
            "reply" => plain_reply(5, &[4], Way::Direct),
            _ => plain_read(2, 4, &[5], Way::SentOn),
        };
        assert_eq!(model.packets(), [expected]);
    }
}

#[test]
fn direct_read_carries_number_and_last_committed() {
    let mut model = model(2);
    model.write_through(5, 9);
    model.write_at_head(6, 1);
    assert_eq!(model.read(5), OK);
    assert_eq!(model.give_to(0, 3), OK);
    let expected = Packet::DirectRead {
        to: 2,
        operation: 3,
        objects: Few::one(5),
        switch: 1,
        committed: Stamp::new(1, 1),
    };
    assert_eq!(model.packets(), [expected]);
}

#[test]
fn p9_and_p10_with_64_waiting() {
    let mut model = model(1);
    model.write_at_head(0, 9);
    assert_eq!(model.write(1, 1), OK);
    assert_eq!(model.give(2), OK);
    assert_eq!(model.write(2, 2), OK);
    (0..60).for_each(|_| assert_eq!(model.again(0), OK));
    assert_eq!(model.waiting(), 64);
    assert_eq!(model.again(0), no(Refusal::TooManyWaiting));
    assert_eq!(model.again(3), no(Refusal::UnstampedRepeat));
    assert_eq!(model.again(64), no(Refusal::NoPacket));
    assert_eq!(model.give(2), no(Refusal::TooManyWaiting));
    assert_eq!(model.held(1, 1), Some(Held::default()));
    assert_eq!(model.step(Step::Lose { position: 63 }), OK);
    assert_eq!(model.give(2), OK);
    assert_eq!(model.waiting(), 64);
    assert_eq!(model.stamp(1, 1), Stamp::new(1, 2));
}

#[test]
fn p11_choice_by_chain_place() {
    for (choice, replica) in [(5, 4), (0, 1), (1, 2), (3, 1), (255, 1), (254, 4)] {
        let mut model = model(4);
        model.write_at_head(5, 9);
        (2..=4).for_each(|r| assert_eq!(model.move_on(r), OK));
        assert_eq!(model.give(1), OK);
        assert_eq!(model.step(Step::Remove { replica: 3 }), OK);
        assert_eq!(model.read(5), OK);
        assert_eq!(model.give_to(1, choice), OK);
        let Packet::DirectRead { to, .. } = model.packets()[1] else {
            panic!("not direct: {:?}", model.packets()[1]);
        };
        assert_eq!(to, replica);
    }
}

#[test]
fn a_write_through_three_replicas() {
    let mut model = model(3);
    model.write_at_head(5, 9);
    assert_eq!(model.value(1, 5), 9);
    assert_eq!(model.value(2, 5), 0);
    assert_eq!(model.move_on(3), no(Refusal::NothingIncoming));
    assert_eq!(model.move_on(2), OK);
    assert_eq!((model.value(2, 5), model.waiting()), (9, 0));
    assert_eq!(model.move_on(3), OK);
    let stamp = Stamp::new(1, 1);
    let completion = Packet::Completion { object: 5, stamp };
    let reply = plain_reply(1, &[9], Way::Write);
    assert_eq!(model.packets(), [reply, completion]);
    assert_eq!(model.move_on(1), no(Refusal::NothingIncoming));
    assert_eq!(model.move_on(4), no(Refusal::NotLive));
}

#[test]
fn replacement_and_permits() {
    let mut model = model(2);
    model.write_through(5, 9);
    assert_eq!(model.write(5, 1), OK);
    let replace = |switch| Step::Replace { switch };
    assert_eq!(model.step(replace(1)), no(Refusal::SwitchNotAbove));
    assert_eq!(model.step(replace(300)), OK);
    assert_eq!(model.give(0), OK);
    assert_eq!(model.waiting(), 0, "no permit, so dropped");
    let tell = |replica| Step::Tell { replica };
    assert_eq!(model.step(tell(1)), OK);
    assert_eq!(model.step(tell(3)), no(Refusal::NotLive));
    assert_eq!((model.permits(1), model.permits(2)), (Some(300), Some(1)));
    assert_eq!(model.step(tell(2)), OK);
    model.write_at_head(5, 2);
    assert_eq!(model.stamp(1, 5), Stamp::new(300, 1));
    assert_eq!(model.stamp(2, 5), Stamp::new(1, 1));
}

#[test]
fn a_refused_step_changes_nothing() {
    let mut model = model(2);
    model.write_at_head(5, 9);
    (0..63).for_each(|_| assert_eq!(model.read(6), OK));
    let before = model.packets().to_vec();
    assert_eq!(model.move_on(2), no(Refusal::TooManyWaiting));
    assert_eq!(model.packets(), before);
    assert_eq!(model.incoming(2).len(), 1);
    assert_eq!(model.value(2, 5), 0);
    assert_eq!(model.step(Step::Lose { position: 62 }), OK);
    assert_eq!(model.move_on(2), OK);
    assert_eq!((model.waiting(), model.value(2, 5)), (64, 9));
}

#[test]
fn removal_orders_nine_before_twelve() {
    let mut model = model(2);
    let remove = |replica| Step::Remove { replica };
    assert_eq!(model.step(remove(3)), no(Refusal::NotLive));
    assert_eq!(model.step(remove(1)), OK);
    assert_eq!(model.step(remove(1)), no(Refusal::NotLive));
    assert_eq!(model.step(remove(2)), no(Refusal::OnlyOneLive));
    assert_eq!(model.live().collect::<Vec<_>>(), [2]);
}

#[test]
fn a_reply_finishes_once() {
    let mut model = model(1);
    assert_eq!(model.read(3), OK);
    assert_eq!(model.again(0), OK);
    (0..4).for_each(|_| assert_eq!(model.give(0), OK));
    assert_eq!(model.give(0), done(1, &[0], Way::Tail));
    assert_eq!(model.give(0), OK);
    let operation = 1;
    assert_eq!(model.step(Step::GiveUp { operation }), no(Refusal::NotOpen));
}

/// What the normal read or reply at a position carries.
fn carried(model: &Model, position: usize) -> Option<Stamp> {
    match model.packets()[position] {
        Packet::NormalRead { carried, .. } | Packet::Reply { carried, .. } => carried,
        other => panic!("carries nothing: {other:?}"),
    }
}

#[test]
fn the_age_is_by_the_whole_stamp() {
    let (low, high) = (Stamp::new(1, 9), Stamp::new(2, 1));
    assert_eq!(Age::of(low, Some(high)), Age::Old);
    assert_eq!(Age::of(high, Some(low)), Age::New);
    assert_eq!(Age::of(high, Some(high)), Age::New);
    assert_eq!(Age::of(Stamp::ZERO, Some(low)), Age::Old);
    assert_eq!(Age::of(high, None), Age::None);
}

#[test]
fn a_read_and_its_reply_carry_the_mark_s_stamp() {
    for on in [false, true] {
        let mut model = model(2);
        if on {
            model.write_through(7, 1);
        }
        assert_eq!(model.direct_reads(), on);
        model.write_at_head(5, 9);
        let mark = Some(Stamp::new(1, 1 + u32::from(on)));
        assert_eq!(model.counting_mark(5), mark);
        let operation = model.begun() + 1;
        assert_eq!(model.read(5), OK);
        assert_eq!(model.give(0), OK);
        assert_eq!(carried(&model, 0), mark);
        assert_eq!(model.again(0), OK);
        assert_eq!(model.packets()[0], model.packets()[1]);
        assert_eq!(model.give(0), OK);
        assert_eq!(carried(&model, 1), mark);
        assert_eq!(model.move_on(2), OK);
        assert_eq!(model.give(1), aged(operation, 0, Age::Old));
        assert_eq!(model.give(0), OK);
        assert_eq!(carried(&model, 2), mark);
        assert_eq!(model.give(2), OK, "answered new, but no longer open");
    }
}

#[test]
fn the_age_stays_as_it_was_when_answered() {
    let mut model = model(2);
    model.write_at_head(5, 9);
    assert_eq!(model.read(5), OK);
    (0..2).for_each(|_| assert_eq!(model.give(0), OK));
    assert_eq!(model.move_on(2), OK);
    assert_eq!(model.give(1), written(1, 9));
    assert_eq!(model.give(1), OK);
    assert_eq!(model.counting_mark(5), None);
    assert_eq!(model.give(0), aged(2, 0, Age::Old));
}

#[test]
fn a_direct_read_sent_on_carries_nothing() {
    let mut model = model(2);
    model.write_through(5, 1);
    assert_eq!(model.read(5), OK);
    assert_eq!(model.give(0), OK);
    model.write_at_head(5, 2);
    assert_eq!(model.counting_mark(5), Some(Stamp::new(1, 2)));
    assert_eq!(model.give(0), OK);
    assert_eq!(carried(&model, 0), None);
    assert_eq!(model.give(0), OK);
    assert_eq!(model.packets(), [plain_reply(2, &[1], Way::SentOn)]);
    assert_eq!(model.give(0), done(2, &[1], Way::SentOn));
}

/// In a run all marks count while direct reads are off: last-committed is
/// (0,0) until the first completion, which turns them on. So this state is
/// made by hand.
#[test]
fn an_overtaken_mark_gives_no_stamp_with_direct_reads_off() {
    let mut model = model(2);
    assert_eq!(model.write(5, 9), OK);
    assert_eq!(model.give(0), OK);
    model.switch.committed = Stamp::new(1, 1);
    assert_eq!((model.direct_reads(), model.counting_marks()), (false, 0));
    assert_eq!(model.read(5), OK);
    assert_eq!(model.give(1), OK);
    assert_eq!(carried(&model, 1), None);
    assert_eq!(model.give(1), OK);
    assert_eq!(model.give(1), done(2, &[0], Way::Tail));
}

#[test]
fn contexts_of_two_to_eight_objects() {
    for count in 0..12u16 {
        let mut model = model(1);
        let objects: Vec<u16> = (0..count).map(|k| 1023 - k).collect();
        let answer = model.context(&objects);
        match count {
            2..=8 => {
                assert_eq!(answer, OK);
                let objects = Few::new(&objects);
                let operation = 1;
                assert_eq!(model.packets(), [Packet::Read { operation, objects }]);
                assert_eq!((model.begun(), model.open()), (1, 1));
            }
            _ => {
                assert_eq!(answer, no(Refusal::BadRecord));
                assert_eq!((model.waiting(), model.begun(), model.open()), (0, 0, 0));
            }
        }
    }
}

#[test]
fn another_number_of_objects_comes_before_all_else() {
    let mut model = model(1);
    (0..64).for_each(|_| assert_eq!(model.read(7), OK));
    model.begun = u32::MAX;
    for objects in [&[][..], &[1024], &[1024; 9], &[5; 9]] {
        assert_eq!(model.context(objects), no(Refusal::BadRecord));
    }
}

/// From a state in which all of 3, 16, 4, 5 and 6 hold, one after the other is
/// taken away.
#[test]
fn the_order_of_refusals_of_a_context() {
    let mut model = model(1);
    (0..64).for_each(|_| assert_eq!(model.read(7), OK));
    model.begun = u32::MAX;
    assert_eq!(model.context(&[1024, 1024]), no(Refusal::BadObject));
    assert_eq!(model.context(&[5, 5, 1024]), no(Refusal::BadObject));
    assert_eq!(model.context(&[5, 6, 5]), no(Refusal::NamedTwice));
    assert_eq!(model.context(&[5, 6]), no(Refusal::NumbersUsedUp));
    model.begun = 64;
    assert_eq!(model.context(&[5, 5]), no(Refusal::NamedTwice));
    assert_eq!(model.context(&[5, 6]), no(Refusal::TooManyOpen));
    let operation = 1;
    assert_eq!(model.step(Step::GiveUp { operation }), OK);
    assert_eq!(model.context(&[5, 5]), no(Refusal::NamedTwice));
    assert_eq!(model.context(&[5, 6]), no(Refusal::TooManyWaiting));
    let position = 0;
    assert_eq!(model.step(Step::Lose { position }), OK);
    assert_eq!(model.context(&[5, 5]), no(Refusal::NamedTwice));
    assert_eq!((model.waiting(), model.begun(), model.open()), (63, 64, 63));
    assert_eq!(model.context(&[5, 6]), OK);
    assert_eq!((model.waiting(), model.begun(), model.open()), (64, 65, 64));
}

/// Each object of each place above 1,023, and each pair of places with the same
/// object.
#[test]
fn every_place_of_a_context_is_looked_at() {
    let sound = [10, 11, 12, 13, 14, 15, 16, 17];
    let mut model = model(1);
    for count in 2..=8 {
        for first in 0..count {
            let mut objects = sound[..count].to_vec();
            objects[first] = 1024;
            assert_eq!(model.context(&objects), no(Refusal::BadObject));
            for second in 0..first {
                let mut objects = sound[..count].to_vec();
                objects[first] = objects[second];
                assert_eq!(model.context(&objects), no(Refusal::NamedTwice));
            }
        }
        assert_eq!(model.context(&sound[..count]), OK);
    }
}

/// A model of two with these writes through the chain, one after the other.
fn with_values(values: &[(u16, u32)]) -> Model {
    let mut model = model(2);
    for &(object, value) in values {
        model.write_through(object, value);
    }
    model
}

#[test]
fn a_context_goes_directly_if_no_object_is_marked() {
    let objects = [7, 5, 6];
    for marked in [None, Some(7), Some(5), Some(6), Some(8)] {
        let mut model = with_values(&[(5, 1), (6, 2)]);
        if let Some(object) = marked {
            model.write_at_head(object, 3);
        }
        let operation = model.begun() + 1;
        assert_eq!(model.context(&objects), OK);
        assert_eq!(model.give_to(0, 1), OK);
        let direct = Packet::DirectRead {
            to: 2,
            operation,
            objects: Few::new(&objects),
            switch: 1,
            committed: Stamp::new(1, 2),
        };
        let expected = match marked {
            None | Some(8) => direct,
            Some(_) => plain_read(2, operation, &objects, Way::Tail),
        };
        assert_eq!(model.packets(), [expected], "{marked:?}");
    }
}

#[test]
fn a_context_is_normal_while_direct_reads_are_off() {
    let mut model = model(3);
    assert_eq!(model.context(&[6, 5]), OK);
    assert_eq!(model.give_to(0, 0), OK);
    assert_eq!(model.packets(), [plain_read(3, 1, &[6, 5], Way::Tail)]);
    assert_eq!(model.give(0), OK);
    assert_eq!(model.packets(), [plain_reply(1, &[0, 0], Way::Tail)]);
    assert_eq!(model.give(0), done(1, &[0, 0], Way::Tail));
}

/// A direct read of three objects at the head, which has applied a write of one
/// of them, or of another object, meanwhile.
#[test]
fn a_direct_context_against_every_object_s_stamp() {
    let objects = [7, 5, 6];
    for ahead in [None, Some(7), Some(5), Some(6), Some(8)] {
        let mut model = with_values(&[(5, 1), (6, 2)]);
        assert_eq!(model.context(&objects), OK);
        assert_eq!(model.give_to(0, 0), OK);
        if let Some(object) = ahead {
            model.write_at_head(object, 3);
        }
        assert_eq!(model.give(0), OK);
        let (packet, way) = match ahead {
            None | Some(8) => (plain_reply(3, &[0, 1, 2], Way::Direct), Way::Direct),
            Some(_) => (plain_read(2, 3, &objects, Way::SentOn), Way::SentOn),
        };
        assert_eq!(model.packets(), [packet], "{ahead:?}");
        if way == Way::SentOn {
            assert_eq!(model.give(0), OK);
        }
        assert_eq!(model.give(0), done(3, &[0, 1, 2], way));
    }
}

#[test]
fn a_direct_context_of_a_switch_that_is_not_permitted() {
    let mut model = with_values(&[(5, 1)]);
    assert_eq!(model.context(&[5, 6]), OK);
    assert_eq!(model.give_to(0, 0), OK);
    assert_eq!(model.step(Step::Replace { switch: 2 }), OK);
    assert_eq!(model.again(0), OK);
    assert_eq!(model.give(0), OK, "the old switch is still permitted");
    assert_eq!(model.packets()[1], plain_reply(2, &[1, 0], Way::Direct));
    assert_eq!(model.step(Step::Tell { replica: 1 }), OK);
    assert_eq!(model.give(0), OK);
    assert_eq!(model.packets()[1], plain_read(2, 2, &[5, 6], Way::SentOn));
}

#[test]
fn a_context_to_a_replica_gone_is_dropped() {
    for (replica, direct) in [(1, true), (2, false)] {
        let mut model = model(3);
        if direct {
            model.write_at_head(5, 9);
            (2..=3).for_each(|r| assert_eq!(model.move_on(r), OK));
            assert_eq!(model.give(0), written(1, 9));
            assert_eq!(model.give(0), OK);
        }
        assert_eq!(model.context(&[5, 6]), OK);
        assert_eq!(model.give_to(0, 0), OK);
        assert_eq!(model.step(Step::Remove { replica }), OK);
        let replica = 3;
        assert_eq!(model.step(Step::Remove { replica }), OK);
        assert_eq!(model.give(0), OK);
        assert_eq!((model.waiting(), model.open()), (0, 1));
    }
}

/// A copy made before the answer is answered anew, one made after it says the
/// same; the first reply delivered finishes the read, the others are ignored.
#[test]
fn copies_of_a_context() {
    let mut model = model(1);
    assert_eq!(model.context(&[5, 6]), OK);
    assert_eq!(model.give(0), OK);
    assert_eq!(model.again(0), OK);
    assert_eq!(model.give(0), OK);
    assert_eq!(model.again(1), OK);
    model.write_at_head(6, 9);
    assert_eq!(model.give(0), OK);
    let reply = |values| plain_reply(1, values, Way::Tail);
    let replies = [model.packets()[0], model.packets()[1], model.packets()[4]];
    assert_eq!(replies, [reply(&[0, 0]), reply(&[0, 0]), reply(&[0, 9])]);
    assert_eq!(model.give(4), done(1, &[0, 9], Way::Tail));
    (0..2).for_each(|_| assert_eq!(model.give(0), OK));
    assert_eq!((model.waiting(), model.open()), (2, 1));
}

/// A marked object gives a context no age, whether it is answered before or
/// after the write.
#[test]
fn a_context_has_no_age() {
    let mut model = model(2);
    model.write_at_head(5, 9);
    assert_eq!(model.context(&[5, 6]), OK);
    assert_eq!(model.give(0), OK);
    assert_eq!(model.again(0), OK);
    assert_eq!(carried(&model, 0), None);
    assert_eq!(model.give(0), OK);
    assert_eq!(model.move_on(2), OK);
    assert_eq!(model.give(0), OK);
    assert_eq!(model.packets()[0], plain_reply(2, &[0, 0], Way::Tail));
    assert_eq!(model.packets()[3], plain_reply(2, &[9, 0], Way::Tail));
}
