//! Runs drawn from a seed (document 02, Req 08): the second model's bytes, refusals
//! in their order, and a buffer that is exactly long enough or one byte too short.

use super::whole;
use second_model::draw::draw as second_draw;
use second_model::generate::Random;
use second_model::run::output;
use woldladle::{draw, LONGEST_INPUT, MOST_STEPS};

#[test]
fn the_bytes_are_those_of_the_second_model() {
    let mut random = Random::new(9);
    let mut out = vec![0; LONGEST_INPUT];
    for steps in (0..40).chain([999, 6999, 7000]) {
        for n in 1..=8u8 {
            let seed = random.draw() as u32;
            let expected = second_draw(seed, n.into(), steps).expect("a run");
            let size = draw(seed, n.into(), steps, &mut out).expect("a run");
            assert!(out[..size] == expected, "{seed} {n} {steps}");
            assert!(whole(&expected) == output(&expected), "{seed} {n} {steps}");
        }
    }
}

#[test]
fn a_drawn_run_is_written_whole_or_not_at_all() {
    let expected = second_draw(7, 3, 100).expect("a run");
    for room in [0, 4, expected.len() - 1] {
        let mut out = vec![0xaa; room];
        assert_eq!(draw(7, 3, 100, &mut out), Err(15));
        assert!(out.iter().all(|b| *b == 0xaa));
    }
    let mut out = vec![0xaa; expected.len()];
    assert_eq!(draw(7, 3, 100, &mut out), Ok(expected.len()));
    assert_eq!(out, expected);
    let mut out = vec![0xaa; expected.len() + 9];
    assert_eq!(draw(7, 3, 100, &mut out), Ok(expected.len()));
    assert_eq!(out, [&expected[..], &[0xaa; 9]].concat());
}

#[test]
fn refusals_come_in_their_order() {
    let mut out = [0xaa; 3];
    for n in [0, 9, 255, 256, 257, u64::MAX] {
        for steps in [0, MOST_STEPS, MOST_STEPS + 1, u64::MAX] {
            assert_eq!(draw(1, n, steps, &mut out), Err(2));
        }
    }
    for n in 1..=8 {
        assert_eq!(draw(1, n, MOST_STEPS + 1, &mut out), Err(20));
        assert_eq!(draw(1, n, u64::MAX, &mut out), Err(20));
        assert_eq!(draw(1, n, MOST_STEPS, &mut out), Err(15));
        assert_eq!(draw(1, n, 0, &mut out), Err(15));
    }
    assert_eq!(out, [0xaa; 3]);
}
