//! The words of `draw SEED N STEPS`.

use crate::model::Refusal;

/// What draws: `draw`, or a wrong one in a program that is wrong on purpose.
type Drawing = fn(u32, u64, u64) -> Result<Vec<u8>, Refusal>;

/// The number that a word of digits says; the highest of 64 bits for every one
/// above it. None for a word with anything but digits or without any.
fn number(word: &str) -> Option<u64> {
    let digits = word.bytes().map(|byte| byte.wrapping_sub(b'0'));
    let all: Vec<u64> = digits.filter(|&d| d < 10).map(u64::from).collect();
    let sound = !word.is_empty() && all.len() == word.len();
    let more = |number: u64, digit| number.saturating_mul(10).saturating_add(digit);
    sound.then(|| all.into_iter().fold(0, more))
}

/// What the words ask for. None for a wrong number of words, for one that is not
/// digits only, and for a seed above 4,294,967,295; these come before a refusal.
pub fn answer(words: &[String], draw: Drawing) -> Option<Result<Vec<u8>, Refusal>> {
    let [seed, n, steps] = words else {
        return None;
    };
    let seed = u32::try_from(number(seed)?).ok()?;
    let (n, steps) = (number(n)?, number(steps)?);
    Some(draw(seed, n, steps))
}

#[cfg(test)]
mod tests {
    use super::*;
    use crate::draw::draw;

    fn answer_to(words: &str) -> Option<Result<Vec<u8>, Refusal>> {
        let words: Vec<String> = words.split(' ').map(String::from).collect();
        answer(&words, draw)
    }

    #[test]
    fn words_that_draw() {
        assert_eq!(answer_to("7 3 4"), Some(draw(7, 3, 4)));
        assert_eq!(answer_to("4294967295 8 9"), Some(draw(u32::MAX, 8, 9)));
        assert_eq!(answer_to("007 03 0004"), Some(draw(7, 3, 4)));
    }

    #[test]
    fn refusals_however_large() {
        let two = Some(Err(Refusal::BadReplicaCount));
        let twenty = Some(Err(Refusal::TooManySteps));
        for large in ["4294967297", "18446744073709551617", &"1".repeat(60)] {
            assert_eq!(answer_to(&format!("7 {large} 4")), two);
            assert_eq!(answer_to(&format!("7 3 {large}")), twenty);
            assert_eq!(answer_to(&format!("7 {large} {large}")), two);
        }
        assert_eq!(answer_to("7 0 4"), two);
        assert_eq!(answer_to("7 9 7001"), two);
        assert_eq!(answer_to("7 8 7001"), twenty);
    }

    #[test]
    fn words_that_make_no_sense() {
        for words in ["7 3", "7 3 4 5", "", "7 3 ", "7  4", "7 3 4x", "+7 3 4"] {
            assert_eq!(answer_to(words), None, "{words:?}");
        }
        for words in ["-7 3 4", "4294967296 3 4", "4294967296 0 4", "7 0 1e3"] {
            assert_eq!(answer_to(words), None, "{words:?}");
        }
        assert_eq!(answer_to(&format!("{} 3 4", "9".repeat(40))), None);
    }
}
