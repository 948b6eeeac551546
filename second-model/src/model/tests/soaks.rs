//! Operation numbers and counters of 32 bits (document 02, Req 07).

use super::*;

/// The last operation number, and the last counter.
const LAST: u32 = 4_294_967_295;

impl Model {
    fn give_up_one(&mut self, operation: u32) -> Answer {
        self.step(Step::GiveUp { operation })
    }
}

#[test]
fn the_last_number_is_given_and_finishes() {
    let mut model = Model::start_for_tests(1, LAST - 1, 0);
    assert_eq!(model.read(7), OK);
    assert_eq!((model.begun(), model.is_open(LAST)), (LAST, true));
    (0..2).for_each(|_| assert_eq!(model.give(0), OK));
    assert_eq!(model.give(0), done(LAST, &[0], Way::Tail));
    assert_eq!(model.open(), 0);
    assert_eq!(model.read(7), no(Refusal::NumbersUsedUp));
    assert_eq!(model.write(7, 1), no(Refusal::NumbersUsedUp));
    assert_eq!(model.context(&[7, 8]), no(Refusal::NumbersUsedUp));
    assert_eq!((model.begun(), model.open(), model.waiting()), (LAST, 0, 0));
}

#[test]
fn the_last_number_is_given_up() {
    let mut model = Model::start_for_tests(1, LAST - 1, 0);
    assert_eq!(model.write(7, 1), OK);
    assert_eq!(model.read(7), no(Refusal::NumbersUsedUp));
    for other in [0, 1, 65_535, 65_536, LAST - 1, LAST >> 1, LAST << 16] {
        assert_eq!(model.give_up_one(other), no(Refusal::NotOpen), "{other}");
    }
    assert_eq!(model.open(), 1);
    assert_eq!(model.give_up_one(LAST), OK);
    assert_eq!(model.open(), 0);
    assert_eq!(model.give_up_one(LAST), no(Refusal::NotOpen));
    assert_eq!(model.write(7, 1), no(Refusal::NumbersUsedUp));
}

/// Refusals 3 and 16 come before 4, and 5 and 6 after it.
#[test]
fn the_order_of_refusal_4() {
    let mut model = Model::start_for_tests(1, LAST - 64, 0);
    (0..64).for_each(|_| assert_eq!(model.read(7), OK));
    assert_eq!((model.begun(), model.open()), (LAST, FULL));
    assert_eq!(model.read(7), no(Refusal::NumbersUsedUp));
    assert_eq!(model.read(1024), no(Refusal::BadObject));
    assert_eq!(model.write(1024, 1), no(Refusal::BadObject));
    assert_eq!(model.context(&[7, 7]), no(Refusal::NamedTwice));
    model.begun = LAST - 1;
    assert_eq!(model.read(7), no(Refusal::TooManyOpen));
}

/// The numbers once refused: 65,535 was the last one.
#[test]
fn number_65536_is_given() {
    let mut model = Model::start_for_tests(1, 65_534, 0);
    (0..3).for_each(|_| assert_eq!(model.read(7), OK));
    assert_eq!((model.begun(), model.open()), (65_537, 3));
    assert_eq!(model.give_up_one(1), no(Refusal::NotOpen));
    assert_eq!(model.give_up_one(0), no(Refusal::NotOpen));
    for operation in [65_537, 65_535, 65_536] {
        assert_eq!(model.give_up_one(operation), OK);
    }
}

/// Every packet of an operation keeps its whole number, through a chain of two.
#[test]
fn a_write_with_the_last_number_and_the_last_counter() {
    let mut model = Model::start_for_tests(2, LAST - 2, LAST - 1);
    model.write_through(5, 9);
    assert_eq!((model.begun(), model.counter()), (LAST - 1, LAST));
    assert_eq!(model.stamp(1, 5), Stamp::new(1, LAST));
    assert_eq!(model.stamp(2, 5), Stamp::new(1, LAST));
    assert_eq!((model.direct_reads(), model.counting_marks()), (true, 0));
    assert_eq!(model.read(5), OK);
    assert_eq!(model.give_to(0, 0), OK);
    assert_eq!(model.give(0), OK);
    assert_eq!(model.give(0), done(LAST, &[9], Way::Direct));
}

/// "With the counter at its maximum an unstamped write is dropped, and counter
/// and marks stay." A new switch begins anew.
#[test]
fn a_write_without_a_counter_left_is_dropped() {
    let mut model = Model::start_for_tests(1, 0, LAST);
    assert_eq!(model.write(5, 9), OK);
    assert_eq!(model.give(0), OK);
    let left = (model.waiting(), model.counting_marks(), model.counter());
    assert_eq!(left, (0, 0, LAST));
    assert_eq!(model.step(Step::Replace { switch: 2 }), OK);
    assert_eq!(model.step(Step::Tell { replica: 1 }), OK);
    model.write_at_head(5, 9);
    assert_eq!(model.stamp(1, 5), Stamp::new(2, 1));
}

/// P6 on both sides of 65,535: a direct read that carries (1,65535) is not
/// answered where the object has (1,65536), and is where it has (1,65535).
#[test]
fn direct_reads_around_counter_65535() {
    for ahead in [false, true] {
        let mut model = Model::start_for_tests(2, 0, 65_534);
        model.write_through(5, 1);
        assert_eq!(model.read(5), OK);
        assert_eq!(model.give_to(0, 0), OK);
        if ahead {
            model.write_at_head(5, 2);
        }
        let counter = 65_535 + u32::from(ahead);
        assert_eq!(model.stamp(1, 5), Stamp::new(1, counter));
        assert_eq!(model.give(0), OK);
        let expected = match ahead {
            false => plain_reply(2, &[1], Way::Direct),
            true => plain_read(2, 2, &[5], Way::SentOn),
        };
        assert_eq!(model.packets(), [expected]);
    }
}

/// A read goes round the write with counter 65,536 while the tail has 65,535.
#[test]
fn ages_around_counter_65535() {
    for (advances, value, age) in [(1, 1, Age::Old), (2, 2, Age::New)] {
        let mut model = Model::start_for_tests(2, 0, 65_534);
        model.write_at_head(5, 1);
        model.write_at_head(5, 2);
        assert_eq!(model.read(5), OK);
        assert_eq!(model.give(0), OK);
        assert_eq!(carried(&model, 0), Some(Stamp::new(1, 65_536)));
        (0..advances).for_each(|_| assert_eq!(model.move_on(2), OK));
        assert_eq!(model.give(0), OK);
        let last = model.waiting() as u16 - 1;
        assert_eq!(model.give(last), aged(3, value, age));
    }
}

/// A soak without any number set: 70,000 writes and as many reads, each finished,
/// and after every seventh of these pairs a read that is given up.
#[test]
fn a_soak_beyond_65535_operations() {
    let mut model = model(2);
    let mut begun = 0;
    for round in 1..=70_000 {
        model.write_through(round as u16 % 1024, round);
        assert_eq!(model.read(round as u16 % 1024), OK);
        (0..2).for_each(|_| assert_eq!(model.give(0), OK));
        begun += 2;
        assert_eq!(model.give(0), done(begun, &[round], Way::Direct));
        assert_eq!(model.counter(), round);
        if round % 7 == 0 {
            assert_eq!(model.read(7), OK);
            assert_eq!(model.step(Step::Lose { position: 0 }), OK);
            begun += 1;
            assert_eq!(model.give_up_one(begun), OK);
        }
    }
    assert_eq!((model.begun(), model.open()), (begun, 0));
    assert_eq!((begun, model.counter()), (150_000, 70_000));
}
