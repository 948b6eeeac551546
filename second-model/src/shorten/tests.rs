//! What is kept, what is refused, and the order of both.

use super::*;
use crate::compare::shortenings::random_file;
use crate::records::pieces;
use crate::words::file;

/// What is left of a run, both in words.
fn assert_left(run: &str, left: &str) {
    assert_eq!(shorten(&file(run)), Ok(file(left)), "{run}");
}

#[test]
fn what_the_last_record_does_not_need_goes() {
    assert_left(
        "start 3; read 5; deliver 0; read 1024",
        "start 3; read 1024",
    );
    assert_left("start 3; read 1024", "start 3; read 1024");
    let run = "start 2; read 5; lose 0; give up 7; join; 3 * copy; tell 1; join";
    assert_left(run, "start 2; join; join");
    let run = "start 2; tell 1; remove 1; read 5; remove 2";
    assert_left(run, "start 2; remove 1; remove 2");
    let run = "start 1; read 5; read 6; deliver 0; write 7 2; repeat 2";
    assert_left(run, "start 1; read 5; read 6; write 7 2; repeat 2");
}

/// With 64 open another begin is 5, before 6. The give-up goes, and then one begin;
/// the loss behind it goes in the next pass.
#[test]
fn sixty_four_begins_are_kept() {
    assert_left(
        "start 1; 3 * read 5; give up 2; lose 1; 62 * read 6; read 7",
        "start 1; 2 * read 5; 62 * read 6; read 7",
    );
}

/// The last of two give-ups is 13 also without any begin, so that nothing is kept.
#[test]
fn a_give_up_refused() {
    assert_left(
        "start 1; read 5; give up 1; give up 1",
        "start 1; give up 1",
    );
}

/// Runs of a leader with followers, and 23 and 24 among the numbers. With a majority
/// and 63 waiting the last one is 6; each record but one is needed for it.
#[test]
fn what_is_left_of_quorum_runs() {
    let logged = "start-quorum 3; write 5 9; 2 * deliver 0";
    assert_left(
        &format!("{logged}; advance 3; execute"),
        "start-quorum 3; execute",
    );
    assert_left(&format!("{logged}; remove 2"), "start-quorum 3; remove 2");
    assert_left("start-quorum 7; join; copy", "start-quorum 7; copy");
    assert_left("start 2; write 5 9; execute", "start 2; execute");
    let run =
        |tell| format!("{logged}; advance 2; {tell} deliver 0; read 6; 62 * repeat 0; execute");
    assert_left(&run("tell 2;"), &run(""));
}

/// A give-up stays as it is laid out, with length 2 or 4, between or last.
#[test]
fn records_stay_byte_for_byte() {
    let begins = "64 * read 5";
    for give_up in ["give up 1 in two bytes", "give up 1"] {
        let last = format!("start 1; read 5; {give_up}; {give_up}");
        assert_left(&last, &format!("start 1; {give_up}"));
        // Without the give-up the write is 5, and without a read it is accepted.
        let run = format!("start 1; {begins}; {give_up}; write 6 9");
        assert_eq!(shorten(&file(&run)), Ok(file(&run)));
    }
}

/// Going from the last towards the first, the later of two equal records goes.
#[test]
fn the_first_of_equal_ones_is_kept() {
    let run = "start 2; remove 2; read 5; remove 1; remove 2; remove 1";
    assert_left(run, "start 2; remove 2; remove 1");
}

/// The loss goes only once its read is gone, in the second pass.
#[test]
fn another_pass_finds_more() {
    let input = file("start 1; read 5; lose 0; write 6 1; repeat 0");
    let (kept, work) = shorten_by(&input, Shortening::passes).unwrap();
    assert_eq!(kept, file("start 1; write 6 1; repeat 0"));
    let (once, _) = shorten_by(&input, |run| assert!(run.pass())).unwrap();
    assert_ne!(once, kept);
    assert_eq!(work.passes, 3);
}

#[test]
fn passes_trials_and_steps_are_counted() {
    let (_, work) = shorten_by(&file("start 1; read 1024"), Shortening::passes).unwrap();
    let none = Work {
        passes: 1,
        trials: 0,
        steps: 0,
    };
    assert_eq!(work, none);
    let run = file("start 2; tell 1; remove 1; tell 2; remove 2");
    let (_, work) = shorten_by(&run, Shortening::passes).unwrap();
    // First pass: tell 2 goes (3 steps), remove 1 stays (2), tell 1 goes (2); second
    // pass: remove 1 stays (1).
    let expected = Work {
        passes: 2,
        trials: 4,
        steps: 8,
    };
    assert_eq!(work, expected);
}

/// Number by number, and each before the next in the order.
#[test]
fn refusals_and_their_order() {
    let refused = |input: &[u8], number| {
        let answer = shorten(input).map_err(Refusal::number);
        assert_eq!(answer, Err(number));
        let mut buffer = [77; 8];
        let answer = shorten_into(input, &mut buffer);
        assert_eq!(answer.map_err(Refusal::number), Err(number));
        assert_eq!(buffer, [77; 8]);
    };
    refused(&file("start 9; fill 65537"), 14);
    refused(&[], 1);
    refused(&file("read 5; start 9"), 1);
    refused(&file("start 9; read 5; bytes 99"), 2);
    refused(&file("start 0"), 2);
    refused(&file("start 2; start 9"), 1);
    refused(&file("start 2; read 1024; bytes 1 0"), 1);
    refused(&file("start 2; 600 * read 1024; bytes 1 0"), 1);
    refused(&file("start-quorum 4; execute"), 2);
    refused(&file("start-quorum 3; execute; start-quorum 4"), 1);
    refused(&file("start-quorum 3; execute; tell 1"), 21);
    refused(&file("start 2; 512 * read 1024"), 22);
    refused(&file("start 2; 511 * read 1024; tell 1"), 22);
    refused(&file("start 2"), 21);
    refused(&file("start 2; read 1024; tell 1"), 21);
    refused(&file("start 2; 510 * read 1024; tell 1"), 21);
    assert!(shorten(&file("start 2; 511 * read 1024")).is_ok());
}

/// A buffer one byte too short stays as it was; what is beyond the kept records
/// does too.
#[test]
fn a_lent_buffer() {
    let input = file("start 2; tell 1; remove 1; read 5; remove 2");
    let kept = file("start 2; remove 1; remove 2");
    for short in [0, 4, kept.len() - 1] {
        let mut buffer = vec![77; short];
        let answer = shorten_into(&input, &mut buffer);
        assert_eq!(answer, Err(Refusal::BufferTooShort));
        assert_eq!(buffer, vec![77; short]);
    }
    for beyond in [0, 1, 30] {
        let mut buffer = vec![77; kept.len() + beyond];
        assert_eq!(shorten_into(&input, &mut buffer), Ok(kept.len()));
        assert_eq!(buffer, [&kept[..], &vec![77; beyond]].concat());
    }
}

/// What the last record of a file is refused by.
fn refusal_of(records: &[&[u8]]) -> Option<Refusal> {
    let file = records.concat();
    let (start, bytes) = read_start(&file).unwrap();
    let steps = read_steps(&file[bytes.len()..]).unwrap();
    last_refusal(start, steps.into_iter().map(|(step, _)| step))
}

/// Are the first records all among the others, in order?
fn is_subsequence(some: &[&[u8]], all: &[&[u8]]) -> bool {
    let mut rest = all.iter();
    some.iter().all(|record| rest.any(|other| other == record))
}

/// Of random files: the last record is refused with the same number, no single one
/// between can be dropped, the first and the last are the input's and the others a
/// subsequence; and shortening once more changes nothing.
#[test]
fn what_is_left_of_random_files() {
    let mut shortened = 0;
    for index in 0..240 {
        let input = random_file(3, index);
        let Ok(kept) = shorten(&input) else {
            continue;
        };
        let (all, some) = (pieces(&input), pieces(&kept));
        let refusal = refusal_of(&all);
        assert!(refusal.is_some());
        assert_eq!(refusal_of(&some), refusal, "file {index}");
        assert_eq!((some[0], some.last()), (all[0], all.last()));
        assert!(is_subsequence(&some, &all), "file {index}");
        for place in 1..some.len() - 1 {
            let mut fewer = some.clone();
            fewer.remove(place);
            assert_ne!(refusal_of(&fewer), refusal, "file {index}, {place}");
        }
        assert_eq!(shorten(&kept).as_ref(), Ok(&kept), "file {index}");
        shortened += 1;
    }
    assert!(shortened >= 180, "{shortened}");
}
