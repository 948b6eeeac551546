//! Record files in words: steps with `;` between them, such as
//! `start 2; write 5 9; 2 * deliver 0`, for examples and for reports.

use crate::model::{Start, Step};
use crate::records::{append, append_in_two_bytes, given_up_in_two_bytes, read, Record};

/// The record file that some words say. `N * step` and `N * (step; step)` are
/// done N times, `each A to B by C (step; step)` is done for A, A + C and so on up
/// to B, with the number for each `#`, `deliver P` has choice 0, `read` with
/// several objects is a read of a context, `start-quorum N` is a leader with
/// followers, `execute` is tag 14, `give up N in two bytes` is the give-up
/// with length 2, `bytes B ...` are raw bytes, and `fill L` puts zeros up to
/// length L.
///
/// Panics if the words make no sense: they are written in this program.
pub fn file(words: &str) -> Vec<u8> {
    let mut file = Vec::new();
    add_all(words, &mut file);
    file
}

/// Adds what some words say to a file.
fn add_all(words: &str, file: &mut Vec<u8>) {
    let mut depth = 0;
    let ends = words.split(|c| {
        depth += i32::from(c == '(') - i32::from(c == ')');
        c == ';' && depth == 0
    });
    for phrase in ends.map(str::trim).filter(|p| !p.is_empty()) {
        if let Some(rest) = phrase.strip_prefix("each ") {
            add_each(rest, file);
            continue;
        }
        match phrase.split_once('*') {
            Some((times, rest)) => {
                let rest = rest.trim().trim_start_matches('(').trim_end_matches(')');
                (0..number(times.trim())).for_each(|_| add_all(rest, file));
            }
            None => add(phrase, file),
        }
    }
}

/// Adds `A to B by C (step; step)` to a file.
fn add_each(words: &str, file: &mut Vec<u8>) {
    let (range, steps) = words.split_once('(').expect("steps in brackets");
    let steps = steps.strip_suffix(')').expect("steps in brackets");
    let range: Vec<&str> = range.split_whitespace().collect();
    let [first, "to", last, "by", by] = range[..] else {
        panic!("no range: {range:?}");
    };
    for each in (number(first)..=number(last)).step_by(number(by) as usize) {
        add_all(&steps.replace('#', &each.to_string()), file);
    }
}

/// Adds one phrase to a file.
fn add(phrase: &str, file: &mut Vec<u8>) {
    if let Some(bytes) = phrase.strip_prefix("bytes ") {
        file.extend(bytes.split(' ').map(|b| number(b) as u8));
    } else if let Some(length) = phrase.strip_prefix("fill ") {
        file.resize(number(length) as usize, 0);
    } else if let Some(operation) = of_two_bytes(phrase) {
        append_in_two_bytes(operation, file);
    } else {
        append(record(phrase), file);
    }
}

/// The operation of `give up N in two bytes`.
fn of_two_bytes(phrase: &str) -> Option<u16> {
    let operation = phrase.strip_prefix("give up ")?;
    let operation = number(operation.strip_suffix(" in two bytes")?);
    Some(u16::try_from(operation).expect("an operation of two bytes"))
}

fn number(word: &str) -> u32 {
    word.parse()
        .unwrap_or_else(|_| panic!("no number: {word:?}"))
}

/// The record that one phrase says.
fn record(phrase: &str) -> Record {
    let phrase = phrase.replace("give up", "give-up");
    let mut words = phrase.split(' ');
    let verb = words.next().unwrap_or_default();
    let fields: Vec<u32> = words.map(number).collect();
    let step = match (verb, fields.as_slice()) {
        ("start", &[n]) => return Record::Start(Start::Chain { replicas: n as u8 }),
        ("start-quorum", &[n]) => return Record::Start(Start::Quorum { replicas: n as u8 }),
        ("write", &[object, value]) => Step::Write {
            object: object as u16,
            value,
        },
        ("deliver", &[position, choice]) => Step::Deliver {
            position: position as u16,
            choice: choice as u8,
        },
        ("read", &[_, _, ..]) => Step::Context {
            objects: fields.iter().map(|&object| object as u16).collect(),
        },
        ("join", &[]) => Step::Join,
        ("copy", &[]) => Step::Copy,
        ("execute", &[]) => Step::Execute,
        (verb, &[field]) => with_one_field(verb, field),
        _ => panic!("no step: {phrase:?}"),
    };
    Record::Step(step)
}

/// The steps that have one field, or whose other field is left out.
fn with_one_field(verb: &str, field: u32) -> Step {
    let (byte, pair) = (field as u8, field as u16);
    match verb {
        "read" => Step::Read { object: pair },
        "deliver" => Step::Deliver {
            position: pair,
            choice: 0,
        },
        "lose" => Step::Lose { position: pair },
        "repeat" => Step::Repeat { position: pair },
        "advance" => Step::Advance { replica: byte },
        "replace" => Step::Replace { switch: pair },
        "tell" => Step::Tell { replica: byte },
        "remove" => Step::Remove { replica: byte },
        "give-up" => Step::GiveUp { operation: field },
        _ => panic!("no step: {verb:?}"),
    }
}

/// One piece of a record file in words.
pub fn describe(piece: &[u8]) -> String {
    let step = match read(piece) {
        Some((Record::Start(start), _)) => return describe_start(start),
        Some((Record::Step(step), _)) => step,
        None => {
            let bytes: Vec<String> = piece.iter().map(u8::to_string).collect();
            return format!("bytes {}", bytes.join(" "));
        }
    };
    match step {
        Step::Read { object } => format!("read {object}"),
        Step::Write { object, value } => format!("write {object} {value}"),
        Step::Deliver { position, choice } => format!("deliver {position} {choice}"),
        Step::Lose { position } => format!("lose {position}"),
        Step::Repeat { position } => format!("repeat {position}"),
        Step::Advance { replica } => format!("advance {replica}"),
        Step::Replace { switch } => format!("replace {switch}"),
        Step::Tell { replica } => format!("tell {replica}"),
        Step::Remove { replica } => format!("remove {replica}"),
        Step::GiveUp { operation } => match given_up_in_two_bytes(piece) {
            Some(_) => format!("give up {operation} in two bytes"),
            None => format!("give up {operation}"),
        },
        Step::Context { objects } => {
            let objects: Vec<String> = objects.each().map(|o| o.to_string()).collect();
            format!("read {}", objects.join(" "))
        }
        Step::Join => "join".to_string(),
        Step::Copy => "copy".to_string(),
        Step::Execute => "execute".to_string(),
    }
}

/// A start in words.
fn describe_start(start: Start) -> String {
    match start {
        Start::Chain { replicas } => format!("start {replicas}"),
        Start::Quorum { replicas } => format!("start-quorum {replicas}"),
    }
}

#[cfg(test)]
mod tests {
    use super::*;
    use crate::records::pieces;

    #[test]
    fn words_make_bytes() {
        let made = file("start 2; 2 * deliver 1 5; give up 258; bytes 7 255");
        let expected = [
            32, 0, 1, 2, 3, 0, 3, 0, 1, 5, 3, 0, 3, 0, 1, 5, 10, 0, 4, 0, 0, 1, 2, 7, 255,
        ];
        assert_eq!(made, expected);
    }

    #[test]
    fn a_give_up_of_each_length() {
        assert_eq!(file("give up 16909060"), [10, 0, 4, 1, 2, 3, 4]);
        assert_eq!(file("give up 4294967295"), [10, 0, 4, 255, 255, 255, 255]);
        assert_eq!(file("give up 258 in two bytes"), [10, 0, 2, 1, 2]);
    }

    #[test]
    fn one_object_or_several() {
        assert_eq!(file("read 5"), [1, 0, 2, 0, 5]);
        assert_eq!(file("read 5 258"), [11, 0, 4, 0, 5, 1, 2]);
        let eight = file("read 1 2 3 4 5 6 7 8");
        assert_eq!((eight.len(), &eight[..3]), (19, &[11, 0, 16][..]));
    }

    #[test]
    fn groups_and_filling() {
        let made = file("start 1; 2 * (tell 1; advance 1); fill 25");
        let pair = [8, 0, 1, 1, 6, 0, 1, 1];
        let expected = [&[32, 0, 1, 1][..], &pair, &pair, &[0; 5]].concat();
        assert_eq!(made, expected);
    }

    #[test]
    fn each_of_some_numbers() {
        let made = file("start 1; each 2 to 7 by 2 (tell #; 2 * copy); join");
        let same = "start 1; tell 2; copy; copy; tell 4; copy; copy; tell 6; copy; copy; join";
        assert_eq!(made, file(same));
        assert_eq!(&made[made.len() - 6..], [13, 0, 0, 12, 0, 0]);
    }

    #[test]
    fn describing_and_making_are_inverse() {
        let words = "start 3; read 1; write 2 3; deliver 4 5; lose 6; repeat 7; \
                     advance 8; replace 9; tell 10; remove 11; give up 12; read 14 13; \
                     give up 12 in two bytes; give up 65536; give up 65535 in two bytes; \
                     read 22 21 20 19 18 17 16 15; join; copy; bytes 11 0 2 0 5; \
                     bytes 12 0 1 0; start-quorum 5; execute; bytes 14 0 1 0; bytes 1 2";
        let made = file(words);
        let told: Vec<String> = pieces(&made).into_iter().map(describe).collect();
        assert_eq!(told.join("; "), words);
    }
}
