//! Shortened runs (document 02, Req 09): the second model's bytes, refusals in their
//! order, and a buffer that is exactly long enough or one byte too short.

use super::whole;
use second_model::generate::{generate, KINDS};
use second_model::records;
use second_model::shorten::shorten as second_shorten;
use woldladle::{shorten, LONGEST_INPUT, MOST_RECORDS};

/// A run of some kind, cut behind a record that is refused by its step.
fn refused_at_the_end(kind: &str, seed: u64) -> Option<Vec<u8>> {
    let file = generate(kind, seed, 2000).expect("a kind");
    let lines = whole(&file);
    let lines = lines.split(|b| *b == b'\n').take(MOST_RECORDS);
    let refused = |line: &[u8]| line.windows(4).any(|w| w == b" no ") && !line.ends_with(b" no 1");
    let last = lines
        .enumerate()
        .filter(|(_, line)| refused(line))
        .last()?
        .0;
    Some(records::pieces(&file)[..=last].concat())
}

#[test]
fn the_bytes_are_those_of_the_second_model() {
    let mut out = vec![0; LONGEST_INPUT];
    let mut shortened = 0;
    for (seed, (kind, _)) in (0..3).flat_map(|seed| KINDS.iter().map(move |k| (seed, k))) {
        let Some(file) = refused_at_the_end(kind, seed) else {
            continue;
        };
        let expected = second_shorten(&file).map_err(|r| r as u8);
        let found = shorten(&file, &mut out).map(|size| out[..size].to_vec());
        assert!(found == expected, "{kind} {seed}");
        shortened += usize::from(found.is_ok());
    }
    assert!(shortened > 20, "{shortened}");
}

/// Start 2; read 5; advance 2, which is refused by 10.
const RUN: [u8; 13] = [32, 0, 1, 2, 1, 0, 2, 0, 5, 6, 0, 1, 2];
const SHORT: [u8; 8] = [32, 0, 1, 2, 6, 0, 1, 2];

#[test]
fn a_shortened_run_is_written_whole_or_not_at_all() {
    for room in 0..SHORT.len() {
        let mut out = vec![0xaa; room];
        assert_eq!(shorten(&RUN, &mut out), Err(15));
        assert!(out.iter().all(|b| *b == 0xaa));
    }
    let mut out = [0xaa; 8];
    assert_eq!(shorten(&RUN, &mut out), Ok(8));
    assert_eq!(out, SHORT);
    let mut out = [0xaa; 10];
    assert_eq!(shorten(&RUN, &mut out), Ok(8));
    assert_eq!(out[..8], SHORT);
    assert_eq!(out[8..], [0xaa; 2]);
}

#[test]
fn refusals_come_in_their_order() {
    let advance = [6, 0, 1, 9];
    let many: Vec<u8> = [32, 0, 1, 1]
        .into_iter()
        .chain(advance.repeat(512))
        .collect();
    let accepted: Vec<u8> = [&many[..], &[1, 0, 2, 0, 5]].concat();
    for (input, refusal) in [
        (vec![0; 65_537], 14),
        (vec![], 1),
        ([&many[..], &[99, 0, 0]].concat(), 1),
        (vec![32, 0, 1, 9, 99], 2),
        (many.clone(), 22),
        (accepted, 22),
        (RUN[..9].to_vec(), 21),
        (RUN[..4].to_vec(), 21),
        (RUN.to_vec(), 15),
        (many[..2048].to_vec(), 15),
    ] {
        let mut out = [0xaa; 3];
        assert_eq!(shorten(&input, &mut out), Err(refusal));
        assert_eq!(out, [0xaa; 3]);
    }
}
