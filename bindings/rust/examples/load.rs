//! A load generator's inner loop: writes object after object, reads each while
//! its write is pending, and compares each answer with what the store under test
//! would be asked.

use woldladle::{write_record, Answer, Freshness, Model, LONGEST_RECORD};

fn main() {
    let mut model = Model::start(3).expect("1 to 8 replicas");
    let mut record = [0; LONGEST_RECORD];
    let mut step = |model: &mut Model, tag, first, second| {
        let size = write_record(tag, first, second, &mut record).expect("a record");
        model.step(&record[..size])
    };
    let (mut writes, mut old, mut new) = (0, 0, 0);
    for round in 1..=1000 {
        let (object, value) = (round % 50, round * 7);
        step(&mut model, 2, object, value); // begin a write
        step(&mut model, 1, object, 0); // .. and a read
        step(&mut model, 3, 0, 0); // the switch marks the write
        step(&mut model, 3, 0, 0); // .. and sends the read to the tail
        step(&mut model, 3, 0, 0); // the head applies the write
        step(&mut model, 6, 2, 0); // the next replica applies it
        if round % 2 == 0 {
            step(&mut model, 3, 0, 0); // the tail answers the read first
        }
        step(&mut model, 6, 3, 0); // .. applies the write
        while model.waiting() > 0 {
            match step(&mut model, 3, 0, 0) {
                Answer::Finished {
                    values, freshness, ..
                } => {
                    assert_eq!(values[0] == value, freshness != Freshness::Old);
                    writes += usize::from(freshness == Freshness::None);
                    old += usize::from(freshness == Freshness::Old);
                    new += usize::from(freshness == Freshness::New);
                }
                answer => assert_eq!(answer, Answer::Done),
            }
        }
        assert_eq!(model.value(3, object), value);
    }
    assert_eq!((writes, old, new), (1000, 500, 500));
    println!(
        "{writes} writes finished; {old} reads overtook the pending write, {new} came after it"
    );
}
