//! Joins (document 02, Req 04), a test for each settled reading.

use super::*;

impl Model {
    fn remove_replica(&mut self, replica: u8) -> Answer {
        self.step(Step::Remove { replica })
    }

    fn tell_replica(&mut self, replica: u8) -> Answer {
        self.step(Step::Tell { replica })
    }

    /// So many copies, each accepted and without a trace in the list.
    fn copies(&mut self, count: usize) {
        for _ in 0..count {
            let before = self.packets().to_vec();
            assert_eq!(self.step(Step::Copy), OK);
            assert_eq!(self.packets(), before);
        }
    }

    /// A join up to its sixteenth copy.
    fn join_whole(&mut self) {
        assert_eq!(self.step(Step::Join), OK);
        self.copies(16);
    }

    fn names(&self) -> Vec<u8> {
        self.live().collect()
    }

    fn highest(&self, replica: u8) -> Stamp {
        let held = (0..OBJECTS).map(|object| self.stamp(replica, object));
        held.max().unwrap()
    }
}

/// What two replicas hold is the same.
fn alike(model: &Model, one: u8, other: u8) -> bool {
    (0..OBJECTS).all(|object| model.held(one, object) == model.held(other, object))
}

#[test]
fn a_newcomer_gets_the_next_number_never_used() {
    for n in 1..=7 {
        let mut model = model(n);
        assert_eq!((model.given(), model.newcomer()), (n, None));
        assert_eq!(model.step(Step::Join), OK);
        assert_eq!((model.given(), model.newcomer()), (n + 1, Some(n + 1)));
    }
    let mut model = model(8);
    assert_eq!(model.remove_replica(8), OK);
    model.join_whole();
    assert_eq!(model.names(), [1, 2, 3, 4, 5, 6, 7, 9]);
}

#[test]
fn a_newcomer_is_not_live_before_the_sixteenth_copy() {
    let mut model = model(2);
    model.write_through(5, 9);
    assert_eq!(model.step(Step::Join), OK);
    for copies in 0..16 {
        assert_eq!(model.names(), [1, 2]);
        assert_eq!(model.copied(), 64 * copies);
        assert_eq!(model.tell_replica(3), no(Refusal::NotLive));
        assert_eq!(model.move_on(3), no(Refusal::NotLive));
        assert_eq!(model.remove_replica(3), no(Refusal::NotLive));
        assert_eq!((model.held(3, 5), model.permits(3)), (None, None));
        assert_eq!(model.newcomer(), Some(3), "the refusals leave the join");
        model.copies(1);
    }
    assert_eq!(model.names(), [1, 2, 3]);
    assert_eq!((model.newcomer(), model.copied()), (None, 0));
    assert_eq!(model.value(3, 5), 9);
    assert_eq!(model.tell_replica(3), OK);
    assert_eq!(model.move_on(3), no(Refusal::NothingIncoming));
}

#[test]
fn the_choice_does_not_see_a_newcomer() {
    let to = |model: &mut Model, choice| {
        assert_eq!(model.read(5), OK);
        assert_eq!(model.give_to(0, choice), OK);
        let Packet::DirectRead { to, .. } = model.packets()[0] else {
            panic!("not direct: {:?}", model.packets()[0]);
        };
        assert_eq!(model.step(Step::Lose { position: 0 }), OK);
        to
    };
    let mut model = model(2);
    model.write_through(5, 9);
    assert_eq!(model.step(Step::Join), OK);
    model.copies(15);
    let during: Vec<u8> = (0..6).map(|choice| to(&mut model, choice)).collect();
    assert_eq!(during, [1, 2, 1, 2, 1, 2]);
    model.copies(1);
    let after: Vec<u8> = (0..6).map(|choice| to(&mut model, choice)).collect();
    assert_eq!(after, [1, 2, 3, 1, 2, 3]);
}

#[test]
fn a_newcomer_is_not_asked_for_its_permit() {
    let mut model = model(2);
    assert_eq!(model.step(Step::Join), OK);
    model.copies(15);
    assert_eq!(model.step(Step::Replace { switch: 2 }), OK);
    (1..=2).for_each(|r| assert_eq!(model.tell_replica(r), OK));
    model.write_through(5, 9);
    assert_eq!(model.stamp(2, 5), Stamp::new(2, 1));
}

/// The tail permits 2 at the begin and 3 at the sixteenth copy; its highest
/// stamp has risen too. The head has been told of 4.
#[test]
fn permit_and_highest_stamp_are_the_tail_s_at_the_end() {
    let mut model = model(2);
    model.write_through(5, 9);
    assert_eq!(model.step(Step::Replace { switch: 2 }), OK);
    (1..=2).for_each(|r| assert_eq!(model.tell_replica(r), OK));
    assert_eq!(model.step(Step::Join), OK);
    model.copies(15);
    assert_eq!(model.step(Step::Replace { switch: 3 }), OK);
    (1..=2).for_each(|r| assert_eq!(model.tell_replica(r), OK));
    model.write_through(1000, 8);
    assert_eq!(model.step(Step::Replace { switch: 4 }), OK);
    assert_eq!(model.tell_replica(1), OK);
    model.copies(1);
    assert_eq!((model.permits(1), model.permits(3)), (Some(4), Some(3)));
    assert_eq!(model.highest(3), Stamp::new(3, 1));
    assert_eq!(
        model.store.chain().unwrap().accepting(3, Stamp::new(3, 1)),
        None
    );
    assert_eq!(
        model.store.chain().unwrap().accepting(3, Stamp::new(3, 2)),
        Some(2)
    );
}

/// Every write to a copied object is there in the same step, others come with
/// their copy.
#[test]
fn writes_to_copied_objects_reach_the_newcomer_at_once() {
    for n in 1..=3 {
        for object in [0, 63, 64, 65, 1023] {
            let mut model = model(n);
            assert_eq!(model.step(Step::Join), OK);
            model.copies(1);
            assert_eq!(model.write(object, 9), OK);
            assert_eq!(model.give(0), OK);
            assert_eq!(model.give(0), OK);
            for replica in 2..=n {
                let before = model.held_by_newcomer(object);
                assert_eq!(before, Some(Held::default()), "not yet at the tail");
                assert_eq!(model.move_on(replica), OK);
            }
            let held = model.held_by_newcomer(object).unwrap();
            let reached = (held.value, held.stamp) == (9, Stamp::new(1, 1));
            assert_eq!(reached, object < 64, "{n} {object}");
            model.copies(15);
            assert!(alike(&model, n, n + 1));
        }
    }
}

#[test]
fn a_write_that_is_refused_or_dropped_does_not_reach_the_newcomer() {
    let mut model = model(1);
    assert_eq!(model.step(Step::Join), OK);
    model.copies(1);
    assert_eq!(model.write(5, 9), OK);
    assert_eq!(model.give(0), OK);
    assert_eq!(model.read(7), OK);
    (0..62).for_each(|_| assert_eq!(model.again(1), OK));
    assert_eq!(model.give(0), no(Refusal::TooManyWaiting));
    assert_eq!(model.held_by_newcomer(5), Some(Held::default()));
    (0..10).for_each(|_| assert_eq!(model.step(Step::Lose { position: 1 }), OK));
    assert_eq!(model.again(0), OK);
    assert_eq!(model.give(0), OK);
    assert_eq!(model.held_by_newcomer(5), model.held(1, 5));
    let copy = |p: &Packet| matches!(p, Packet::StampedWrite { .. });
    let copy = model.packets().iter().position(copy).unwrap();
    model.falsify_newcomer(5, Held::default());
    assert_eq!(model.give(copy as u16), OK, "too low, so dropped");
    assert_eq!(model.held_by_newcomer(5), Some(Held::default()));
}

#[test]
fn the_sixteenth_copy_makes_a_tail_with_an_empty_link() {
    let mut model = model(2);
    model.write_at_head(5, 9);
    model.join_whole();
    assert_eq!(model.incoming(2).len(), 1);
    assert_eq!(model.incoming(3).len(), 0);
    assert_eq!(model.move_on(2), OK);
    assert_eq!(model.waiting(), 0, "no longer the tail, so no reply");
    assert_eq!(model.incoming(3).len(), 1);
    assert_eq!(model.move_on(3), OK);
    assert_eq!(model.give(0), written(1, 9));
}

#[test]
fn only_an_accepted_removal_of_the_tail_ends_a_join() {
    let mut model = model(4);
    assert_eq!(model.step(Step::Join), OK);
    model.copies(3);
    assert_eq!(model.remove_replica(5), no(Refusal::NotLive));
    assert_eq!(model.remove_replica(2), OK);
    assert_eq!(model.remove_replica(2), no(Refusal::NotLive));
    assert_eq!(model.remove_replica(1), OK);
    assert_eq!(model.remove_replica(3), OK);
    assert_eq!(model.remove_replica(4), no(Refusal::OnlyOneLive));
    assert_eq!((model.newcomer(), model.copied()), (Some(5), 192));
    model.copies(13);
    assert_eq!(model.names(), [4, 5]);
    assert_eq!(model.step(Step::Join), OK);
    assert_eq!(model.remove_replica(5), OK);
    assert_eq!((model.newcomer(), model.given()), (None, 6));
    assert_eq!(model.step(Step::Copy), no(Refusal::NoJoin));
    model.join_whole();
    assert_eq!(model.names(), [4, 7], "6 is used up");
}

/// A write that reached the newcomer of an ended join is not there in the next.
#[test]
fn an_ended_join_leaves_nothing_behind() {
    let mut model = model(2);
    assert_eq!(model.step(Step::Join), OK);
    model.copies(1);
    model.write_through(5, 9);
    assert_eq!(model.held_by_newcomer(5).unwrap().value, 9);
    assert_eq!(model.remove_replica(2), OK);
    assert_eq!(model.step(Step::Join), OK);
    assert_eq!(model.held_by_newcomer(5), Some(Held::default()));
    assert_eq!(model.copied(), 0);
}

#[test]
fn a_former_tail_sends_a_normal_read_on() {
    for objects in [&[5][..], &[5, 6]] {
        let mut model = model(2);
        model.write_at_head(5, 9);
        let begun = match objects {
            &[object] => model.read(object),
            objects => model.context(objects),
        };
        assert_eq!(begun, OK);
        assert_eq!(model.give(0), OK);
        model.join_whole();
        let stamp = (objects.len() == 1).then_some(Stamp::new(1, 1));
        let to = |to| Packet::NormalRead {
            to,
            operation: 2,
            objects: Few::new(objects),
            carried: stamp,
            way: Way::Tail,
        };
        assert_eq!(model.packets(), [to(2)]);
        assert_eq!(model.move_on(2), OK);
        assert_eq!(model.give(0), OK);
        assert_eq!(model.packets(), [to(3)], "one more delivery, same stamp");
        assert_eq!(model.give(0), OK);
        let finished = model.give(0);
        match objects.len() {
            1 => assert_eq!(finished, aged(2, 0, Age::Old), "the new tail's value"),
            _ => assert_eq!(finished, done(2, &[0, 0], Way::Tail)),
        }
    }
}

#[test]
fn a_former_tail_that_is_gone_drops_and_one_that_is_tail_again_answers() {
    for gone in [2, 3] {
        let mut model = model(2);
        assert_eq!(model.read(5), OK);
        assert_eq!(model.give(0), OK);
        model.join_whole();
        assert_eq!(model.remove_replica(gone), OK);
        assert_eq!(model.give(0), OK);
        match gone {
            2 => assert_eq!((model.waiting(), model.open()), (0, 1)),
            _ => assert_eq!(model.packets(), [plain_reply(1, &[0], Way::Tail)]),
        }
    }
}

#[test]
fn a_normal_read_is_answered_by_the_tail_while_a_join_is_under_way() {
    let mut model = model(2);
    assert_eq!(model.read(5), OK);
    assert_eq!(model.give(0), OK);
    assert_eq!(model.step(Step::Join), OK);
    model.copies(15);
    assert_eq!(model.give(0), OK);
    assert_eq!(model.give(0), done(1, &[0], Way::Tail));
}

#[test]
fn a_direct_read_at_a_former_tail_is_answered_or_sent_to_the_present_one() {
    let mut model = model(2);
    model.write_through(5, 9);
    assert_eq!(model.read(5), OK);
    assert_eq!(model.give_to(0, 1), OK);
    model.join_whole();
    assert_eq!(model.again(0), OK);
    assert_eq!(model.give(0), OK);
    assert_eq!(model.packets()[1], plain_reply(2, &[9], Way::Direct));
    model.write_at_head(5, 8);
    assert_eq!(model.move_on(2), OK);
    assert_eq!(model.give(0), OK);
    assert_eq!(model.packets()[1], plain_read(3, 2, &[5], Way::SentOn));
}

/// A packet for a number that was removed is dropped, whatever joined since.
#[test]
fn a_number_used_up_never_comes_back() {
    let mut model = model(2);
    assert_eq!(model.read(5), OK);
    assert_eq!(model.give(0), OK);
    assert_eq!(model.remove_replica(2), OK);
    model.join_whole();
    assert_eq!(model.names(), [1, 3]);
    assert_eq!(model.give(0), OK);
    assert_eq!((model.waiting(), model.open()), (0, 1));
    assert_eq!(model.tell_replica(2), no(Refusal::NotLive));
}

#[test]
fn refusals_17_18_and_19() {
    let mut eight = model(8);
    assert_eq!(eight.step(Step::Join), no(Refusal::NoNewcomer));
    assert_eq!(eight.step(Step::Copy), no(Refusal::NoJoin));
    assert_eq!((eight.given(), eight.newcomer()), (8, None));
    let mut seven = model(7);
    assert_eq!(seven.step(Step::Join), OK);
    seven.copies(2);
    assert_eq!(seven.step(Step::Join), no(Refusal::JoinUnderWay));
    assert_eq!((seven.given(), seven.copied()), (8, 128));
    seven.copies(14);
    assert_eq!(seven.step(Step::Join), no(Refusal::NoNewcomer));
    assert_eq!(seven.step(Step::Copy), no(Refusal::NoJoin));
}

/// Number 255 under way is 17 before 18, and still becomes the tail.
#[test]
fn number_255_is_the_last() {
    let mut model = model(8);
    for number in 9..=254 {
        assert_eq!(model.remove_replica(number - 8), OK);
        model.join_whole();
        assert_eq!(model.names(), (number - 7..=number).collect::<Vec<u8>>());
    }
    assert_eq!(model.remove_replica(247), OK);
    assert_eq!(model.step(Step::Join), OK);
    assert_eq!((model.given(), model.newcomer()), (255, Some(255)));
    assert_eq!(model.step(Step::Join), no(Refusal::NoNewcomer));
    model.copies(16);
    assert_eq!(model.live().last(), Some(255));
    assert_eq!(model.remove_replica(255), OK);
    assert_eq!(model.step(Step::Join), no(Refusal::NoNewcomer));
}
