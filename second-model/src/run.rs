//! What the run program prints (document 01, section of that name; document
//! 02, Req 01, Req 02, Req 07, Req 10 and Req 11).

use crate::model::{Answer, Finished, Model, Refusal, Step};
use crate::records::{Reader, Record};

/// "Input above 65,536 bytes" is turned down whole.
pub const INPUT_LONGEST: usize = 65_536;

/// What the line of an accepted record says.
#[derive(Clone, Copy, Debug, PartialEq, Eq)]
pub struct Accepted {
    pub waiting: usize,
    pub marks: usize,
    pub finished: Option<Finished>,
}

/// What the line of a record says.
pub type Outcome = Result<Accepted, Refusal>;

/// Runs an input and shows each line's number and outcome.
pub fn walk(input: &[u8], show: impl FnMut(usize, Outcome)) {
    walk_by(input, Model::step, show);
}

/// Runs an input with steps made in this way.
pub fn walk_by(
    input: &[u8],
    make: impl FnMut(&mut Model, Step) -> Answer,
    mut show: impl FnMut(usize, Outcome),
) {
    if input.len() > INPUT_LONGEST {
        return show(0, Err(Refusal::InputTooLong));
    }
    let mut reader = Reader::new(input);
    let model = match started(&mut reader) {
        Ok(model) => model,
        Err(refusal) => return show(1, Err(refusal)),
    };
    show(1, outcome(&model, Ok(None)));
    walk_on(model, reader, make, show);
}

/// Runs the records that are left, from number 2 on.
fn walk_on(
    mut model: Model,
    reader: Reader,
    mut make: impl FnMut(&mut Model, Step) -> Answer,
    mut show: impl FnMut(usize, Outcome),
) {
    for (number, record) in (2..).zip(reader) {
        let Ok(Record::Step(step)) = record else {
            return show(number, Err(Refusal::BadRecord));
        };
        let answer = make(&mut model, step);
        show(number, outcome(&model, answer));
    }
}

/// The first record must be a start, and its numbers such as it takes.
fn started(reader: &mut Reader) -> Result<Model, Refusal> {
    match reader.next() {
        Some(Ok(Record::Start(start))) => Model::start(start),
        _ => Err(Refusal::BadRecord),
    }
}

/// An answer with the counts that its line shows.
fn outcome(model: &Model, answer: Answer) -> Outcome {
    answer.map(|finished| Accepted {
        waiting: model.waiting(),
        marks: model.counting_marks(),
        finished,
    })
}

/// Everything the run program prints for an input.
pub fn output(input: &[u8]) -> Vec<u8> {
    output_by(input, Model::step)
}

/// What is printed if steps are made in this way: `Model::step`, or a wrong one
/// in a program that is wrong on purpose.
pub fn output_by(input: &[u8], make: impl FnMut(&mut Model, Step) -> Answer) -> Vec<u8> {
    let mut out = Vec::with_capacity(64 + 4 * input.len());
    walk_by(input, make, |number, outcome| {
        push_line(&mut out, number, outcome);
    });
    out
}

/// One line: number, then `ok` and its five fields, or `no` and the refusal.
fn push_line(out: &mut Vec<u8>, number: usize, outcome: Outcome) {
    push_number(out, number);
    match outcome {
        Ok(accepted) => {
            out.extend_from_slice(b" ok ");
            push_number(out, accepted.waiting);
            out.push(b' ');
            push_number(out, accepted.marks);
            push_finished(out, accepted.finished);
        }
        Err(refusal) => {
            out.extend_from_slice(b" no ");
            push_number(out, usize::from(refusal.number()));
        }
    }
    out.push(b'\n');
}

/// "Operation and value just finished, or `- -`", then `old`, `new` or `-`,
/// with a space before each; several values are "joined by commas, in the order
/// given".
fn push_finished(out: &mut Vec<u8>, finished: Option<Finished>) {
    let Some(finished) = finished else {
        return out.extend_from_slice(b" - - -");
    };
    out.push(b' ');
    push_number(out, finished.operation as usize);
    for (place, value) in finished.values.each().enumerate() {
        out.push(if place == 0 { b' ' } else { b',' });
        push_number(out, value as usize);
    }
    out.push(b' ');
    out.extend_from_slice(finished.age.word().as_bytes());
}

/// A number in base ten.
fn push_number(out: &mut Vec<u8>, number: usize) {
    let mut digits = [0; 20];
    let mut first = digits.len();
    let mut rest = number;
    loop {
        first -= 1;
        digits[first] = b'0' + (rest % 10) as u8;
        rest /= 10;
        if rest == 0 {
            break;
        }
    }
    out.extend_from_slice(&digits[first..]);
}

#[cfg(test)]
mod tests {
    use super::*;
    use crate::model::{Age, Few, Way};
    use crate::words::file;

    fn text(input: &[u8]) -> String {
        String::from_utf8(output(input)).unwrap()
    }

    #[test]
    fn the_listing_of_document_01() {
        let input = file(
            "start 2; write 5 9; 2 * deliver 0; advance 2; 2 * deliver 0; \
             read 5; 3 * deliver 0; give up 2",
        );
        let listing = "1 ok 0 0 - - -\n2 ok 1 0 - - -\n3 ok 1 1 - - -\n\
                       4 ok 0 1 - - -\n5 ok 2 1 - - -\n6 ok 1 1 1 9 -\n\
                       7 ok 0 0 - - -\n8 ok 1 0 - - -\n9 ok 1 0 - - -\n\
                       10 ok 1 0 - - -\n11 ok 0 0 2 9 -\n12 no 13\n";
        assert_eq!(text(&input), listing);
    }

    /// Two reads pass the switch while write 5 9 is pending; one is answered
    /// before the tail applies it, the other after.
    #[test]
    fn old_and_new() {
        let input = file(
            "start 2; write 5 9; 2 * deliver 0; 2 * read 5; 3 * deliver 0; advance 2; \
             5 * deliver 0",
        );
        let lines = "1 ok 0 0 - - -\n2 ok 1 0 - - -\n3 ok 1 1 - - -\n4 ok 0 1 - - -\n\
                     5 ok 1 1 - - -\n6 ok 2 1 - - -\n7 ok 2 1 - - -\n8 ok 2 1 - - -\n\
                     9 ok 2 1 - - -\n10 ok 4 1 - - -\n11 ok 4 1 - - -\n\
                     12 ok 3 1 2 0 old\n13 ok 2 1 1 9 -\n14 ok 1 0 - - -\n\
                     15 ok 0 0 3 9 new\n";
        assert_eq!(text(&input), lines);
    }

    /// A read of objects 5, 6 and 7 before any write, one with a pending write
    /// of object 6, and one answered directly in another order.
    #[test]
    fn values_joined_by_commas() {
        let input = file(
            "start 1; read 5 6 7; 3 * deliver 0; write 6 9; deliver 0; read 5 6; \
             2 * deliver 0; 2 * deliver 1; deliver 0; deliver 0; \
             read 6 5; 3 * deliver 0",
        );
        let lines = "1 ok 0 0 - - -\n2 ok 1 0 - - -\n3 ok 1 0 - - -\n4 ok 1 0 - - -\n\
                     5 ok 0 0 1 0,0,0 -\n6 ok 1 0 - - -\n7 ok 1 1 - - -\n8 ok 2 1 - - -\n\
                     9 ok 3 1 - - -\n10 ok 3 1 - - -\n11 ok 2 0 - - -\n12 ok 2 0 - - -\n\
                     13 ok 1 0 2 9 -\n14 ok 0 0 3 0,9 -\n15 ok 1 0 - - -\n\
                     16 ok 1 0 - - -\n17 ok 1 0 - - -\n18 ok 0 0 4 9,0 -\n";
        assert_eq!(text(&input), lines);
    }

    /// A completion of the former switch leaves direct reads off, so that the read
    /// is a normal one (Req 10).
    #[test]
    fn a_former_switch_s_completion() {
        let input =
            file("start 1; write 5 9; 3 * deliver 0; replace 2; deliver 0; read 5; 3 * deliver 0");
        let lines = "1 ok 0 0 - - -\n2 ok 1 0 - - -\n3 ok 1 1 - - -\n4 ok 2 1 - - -\n\
                     5 ok 1 1 1 9 -\n6 ok 1 0 - - -\n7 ok 0 0 - - -\n8 ok 1 0 - - -\n\
                     9 ok 1 0 - - -\n10 ok 1 0 - - -\n11 ok 0 0 2 9 -\n";
        assert_eq!(text(&input), lines);
    }

    /// A join begins, is refused a second time, and becomes whole; its lines are
    /// as those of any step that finishes nothing.
    #[test]
    fn lines_of_a_join() {
        let input =
            file("start 2; copy; join; join; read 5; copy; tell 3; 15 * copy; tell 3; copy");
        let plain = |numbers: std::ops::RangeInclusive<usize>| -> String {
            numbers.map(|n| format!("{n} ok 1 0 - - -\n")).collect()
        };
        let start = "1 ok 0 0 - - -\n2 no 19\n3 ok 0 0 - - -\n4 no 18\n";
        let lines = format!("{start}{}7 no 9\n{}24 no 19\n", plain(5..=6), plain(8..=23));
        assert_eq!(text(&input), lines);
    }

    /// A write through a leader and one of two followers, and a read that the other
    /// follower sends on.
    #[test]
    fn lines_of_a_quorum() {
        let input = file(
            "start-quorum 3; write 5 9; 2 * deliver 0; execute; advance 2; deliver 0; execute; \
             2 * deliver 0; read 5; deliver 0 2; 3 * deliver 0; remove 3",
        );
        let lines = "1 ok 0 0 - - -\n2 ok 1 0 - - -\n3 ok 1 1 - - -\n4 ok 0 1 - - -\n5 no 24\n\
                     6 ok 1 1 - - -\n7 ok 0 1 - - -\n8 ok 2 1 - - -\n9 ok 1 1 1 9 -\n\
                     10 ok 0 0 - - -\n11 ok 1 0 - - -\n12 ok 1 0 - - -\n13 ok 1 0 - - -\n\
                     14 ok 1 0 - - -\n15 ok 0 0 2 9 -\n16 no 23\n";
        assert_eq!(text(&input), lines);
        assert_eq!(text(&[33, 0, 1, 4, 1]), "1 no 2\n");
        assert_eq!(text(&[33, 0, 2, 3, 3]), "1 no 1\n");
    }

    /// What is printed for some records after a start with 4,294,967,294
    /// operations given and as many stamps.
    fn near_the_end(records: &str) -> String {
        let model = Model::start_for_tests(1, 4_294_967_294, 4_294_967_294);
        let records = file(records);
        let mut out = Vec::new();
        walk_on(model, Reader::new(&records), Model::step, |number, line| {
            push_line(&mut out, number, line);
        });
        String::from_utf8(out).unwrap()
    }

    #[test]
    fn the_last_operation_finishes_and_refusal_4_follows() {
        let lines = near_the_end("write 5 9; read 5; 3 * deliver 0; write 5 9; read 5; read 5 6");
        let expected = "2 ok 1 0 - - -\n3 no 4\n4 ok 1 1 - - -\n5 ok 2 1 - - -\n\
                        6 ok 1 1 4294967295 9 -\n7 no 4\n8 no 4\n9 no 4\n";
        assert_eq!(lines, expected);
    }

    #[test]
    fn the_last_operation_is_given_up() {
        let lines = near_the_end(
            "read 5; read 5; give up 65535 in two bytes; give up 65535; give up 4294967294; \
             give up 4294967295; give up 4294967295; read 5; 3 * deliver 0",
        );
        let expected = "2 ok 1 0 - - -\n3 no 4\n4 no 13\n5 no 13\n6 no 13\n7 ok 1 0 - - -\n\
                        8 no 13\n9 no 4\n10 ok 1 0 - - -\n11 ok 1 0 - - -\n12 ok 0 0 - - -\n";
        assert_eq!(lines, expected);
    }

    /// A file holds at most 21,845 records: a start and others of three bytes.
    #[test]
    fn the_longest_line() {
        let mut out = Vec::new();
        let finished = Finished {
            operation: u32::MAX,
            values: Few::new(&[u32::MAX; 8]),
            age: Age::None,
            way: Way::Tail,
        };
        let accepted = Accepted {
            waiting: 64,
            marks: 48,
            finished: Some(finished),
        };
        push_line(&mut out, 21_845, Ok(accepted));
        let values = ["4294967295"; 8].join(",");
        let line = format!("21845 ok 64 48 4294967295 {values} -\n");
        assert_eq!((out.len(), out), (116, line.into_bytes()));
    }

    /// Both lengths of a give-up, and a fault of length 3.
    #[test]
    fn a_give_up_of_each_length() {
        let lines = "1 ok 0 0 - - -\n2 ok 1 0 - - -\n3 ok 2 0 - - -\n4 ok 2 0 - - -\n\
                     5 ok 2 0 - - -\n6 no 13\n7 no 1\n";
        let start = "start 1; read 5; read 6;";
        let end = "bytes 10 0 3 0 0 2; read 5";
        for give_ups in [
            "give up 1; give up 2; give up 1",
            "give up 1 in two bytes; give up 2; give up 1 in two bytes",
            "give up 1; give up 2 in two bytes; give up 65537",
        ] {
            let input = file(&format!("{start} {give_ups}; {end}"));
            assert_eq!(text(&input), lines, "{give_ups}");
        }
    }

    #[test]
    fn ends_of_a_run() {
        assert_eq!(text(&[]), "1 no 1\n");
        assert_eq!(text(&[32]), "1 no 1\n");
        assert_eq!(text(&[32, 0, 1]), "1 no 1\n");
        assert_eq!(text(&[32, 0, 1, 2]), "1 ok 0 0 - - -\n");
        assert_eq!(text(&[32, 0, 1, 0]), "1 no 2\n");
        assert_eq!(text(&[32, 0, 1, 9, 1]), "1 no 2\n");
        assert_eq!(text(&[32, 0, 1, 8, 1]), "1 ok 0 0 - - -\n2 no 1\n");
        let twice = [32, 0, 1, 1, 32, 0, 1, 9];
        assert_eq!(text(&twice), "1 ok 0 0 - - -\n2 no 1\n");
    }

    #[test]
    fn length_of_the_input() {
        let mut input = vec![0; INPUT_LONGEST];
        assert_eq!(text(&input), "1 no 1\n");
        input.push(0);
        assert_eq!(text(&input), "0 no 14\n");
    }

    #[test]
    fn numbers_in_base_ten() {
        let mut out = Vec::new();
        for number in [0, 7, 10, 65_535, 4_294_967_295] {
            push_number(&mut out, number);
            out.push(b' ');
        }
        assert_eq!(out, b"0 7 10 65535 4294967295 ");
    }
}
