//! The stored examples: small runs with names that say what they show. Each
//! carries its last line as worked out by hand from document 01 and the
//! requests of document 02.
//!
//! They stand in tables of text, a paragraph each: `name: steps => last line`.
//! A paragraph `let name: steps` gives some steps a name, for use as `{name}`
//! further down.
//!
//! An example whose give-ups all have operations of two bytes has a twin, in which
//! they have length 2; it prints the same lines. Twins stand last.

mod context_refusals;
mod contexts;
mod deliveries;
mod ends;
mod give_ups;
mod joins;
mod late_completions;
mod marks;
mod quorum;
mod refusals;
mod removals;
mod rounds;

use crate::records::{given_up_in_four_bytes, in_two_bytes, pieces};
use crate::run::output;
use crate::words::file;
use std::fs;
use std::io;
use std::path::Path;

/// The tables, in the order in which the examples are listed.
const TABLES: [&str; 12] = [
    ends::TABLE,
    refusals::TABLE,
    marks::TABLE,
    deliveries::TABLE,
    removals::TABLE,
    rounds::TABLE,
    context_refusals::TABLE,
    contexts::TABLE,
    joins::TABLE,
    give_ups::TABLE,
    late_completions::TABLE,
    quorum::TABLE,
];

/// What a twin has behind the name of its example.
const TWIN: &str = "-length-2";

/// A record file with a name, and the last line that it must print.
pub struct Example {
    pub name: String,
    pub input: Vec<u8>,
    pub last: &'static str,
}

/// Every example, each name once.
pub fn all() -> Vec<Example> {
    let mut all: Vec<Example> = TABLES.iter().flat_map(|table| read_table(table)).collect();
    let twins: Vec<Example> = all.iter().filter_map(twin).collect();
    all.extend(twins);
    all
}

/// The same example with length 2 for each give-up; none if it has no give-up of
/// length 4, or one of an operation above 65,535.
fn twin(example: &Example) -> Option<Example> {
    let pieces = pieces(&example.input).into_iter();
    let highest = pieces.filter_map(given_up_in_four_bytes).max()?;
    (highest <= u32::from(u16::MAX)).then(|| Example {
        name: example.name.clone() + TWIN,
        input: in_two_bytes(&example.input),
        last: example.last,
    })
}

/// The examples of one table.
fn read_table(table: &'static str) -> Vec<Example> {
    let mut named: Vec<(String, String)> = Vec::new();
    let mut examples = Vec::new();
    for paragraph in table.split("\n\n") {
        let (name, rest) = paragraph.trim().split_once(':').expect("a name");
        let (steps, last) = rest.split_once("=>").unwrap_or((rest, ""));
        let mut words = steps.split_whitespace().collect::<Vec<_>>().join(" ");
        for (name, steps) in &named {
            words = words.replace(name, steps);
        }
        match name.strip_prefix("let ") {
            Some(name) => named.push((format!("{{{name}}}"), words)),
            None => examples.push(Example {
                name: name.to_string(),
                input: file(&words),
                last: last.trim(),
            }),
        }
    }
    examples
}

/// What the run prints for the listing's records cut at 0, 1, 2 and so on to
/// all of its bytes, one after the other.
pub fn listing_cuts() -> Vec<u8> {
    let listing = all().remove(0).input;
    let cuts = (0..=listing.len()).map(|end| output(&listing[..end]));
    cuts.collect::<Vec<_>>().concat()
}

/// Writes all examples into a folder and gives their number.
pub fn write_all(folder: &Path) -> io::Result<usize> {
    fs::create_dir_all(folder)?;
    let all = all();
    let mut index = String::new();
    for example in &all {
        let path = folder.join(&example.name);
        fs::write(path.with_extension("records"), &example.input)?;
        fs::write(path.with_extension("lines"), output(&example.input))?;
        index += &example.name;
        index.push('\n');
    }
    fs::write(folder.join("listing-cuts.lines"), listing_cuts())?;
    fs::write(folder.join("index"), index)?;
    Ok(all.len())
}

#[cfg(test)]
mod tests {
    use super::*;
    use crate::model::Values;
    use crate::order::{find_order, history, Operation};
    use std::collections::HashSet;

    #[test]
    fn every_example_ends_with_the_line_worked_out() {
        let mut wrong = String::new();
        for example in all() {
            let text = String::from_utf8(output(&example.input)).unwrap();
            assert!(text.ends_with('\n'), "{}", example.name);
            if text.lines().last() != Some(example.last) {
                wrong += &format!("{}: not {}\n{text}\n", example.name, example.last);
            }
        }
        assert!(wrong.is_empty(), "{wrong}");
    }

    #[test]
    fn names_are_plain_and_stand_once() {
        let mut seen = HashSet::new();
        for example in all() {
            let plain = |c: char| c.is_ascii_lowercase() || c.is_ascii_digit() || c == '-';
            assert!(example.name.chars().all(plain), "{}", example.name);
            assert!(!seen.contains(&example.name), "{}", example.name);
            seen.insert(example.name);
        }
        assert!(seen.len() >= 45);
        assert!(!seen.contains("listing-cuts"));
    }

    #[test]
    fn lengths_are_as_named() {
        let long = all()
            .into_iter()
            .filter(|e| e.name.starts_with("length-655"));
        let lengths: Vec<_> = long
            .map(|e| (e.name[7..12].parse(), e.input.len()))
            .collect();
        assert_eq!(lengths.len(), 4);
        assert!(lengths.iter().all(|(named, length)| *named == Ok(*length)));
        let name = "longest-input-ends-in-a-give-up";
        let longest = all().into_iter().find(|e| e.name == name).unwrap();
        assert_eq!(longest.input.len(), 65_536);
    }

    #[test]
    fn every_refusal_in_reach_of_a_file_occurs() {
        let mut seen = HashSet::new();
        for example in all() {
            crate::run::walk(&example.input, |_, outcome| {
                seen.extend(outcome.err().map(|r| r.number()));
            });
        }
        let mut seen: Vec<u8> = seen.into_iter().collect();
        seen.sort_unstable();
        let reachable = [
            1, 2, 3, 5, 6, 7, 8, 9, 10, 11, 12, 13, 14, 16, 17, 18, 19, 23, 24,
        ];
        assert_eq!(seen, reachable);
    }

    #[test]
    fn contexts_end_in_many_ways() {
        let all = all();
        let values = |e: &Example| e.last.split(' ').nth(5).map_or(0, |v| v.split(',').count());
        assert!(all.iter().filter(|e| values(e) > 1).count() >= 40);
        assert!(all.iter().filter(|e| values(e) == 8).count() >= 5);
        let lines = all.iter().map(|e| e.last.len());
        let longest = all.iter().find(|e| e.name == "longest-line").unwrap();
        assert_eq!(lines.max(), Some(longest.last.len()));
    }

    /// The pair of values that two single reads got, put in the place of the one
    /// that the context got, stands at no point of any order.
    #[test]
    fn the_single_reads_pair_stands_at_no_point() {
        let name = "context-at-one-point-beside-single-reads-at-two";
        let example = all().into_iter().find(|e| e.name == name).unwrap();
        let lines = output(&example.input);
        let mut operations = history(&example.input, &lines).unwrap();
        assert!(find_order(&operations).is_some());
        let value = |o: &Operation| o.finished.unwrap().values.kept()[0];
        let pair = [value(&operations[0]), value(&operations[1])];
        assert_eq!(pair, [0, 2]);
        let context = operations[2].finished.as_mut().unwrap();
        assert_eq!(context.values.kept(), [1, 0]);
        context.values = Values::new(&pair);
        assert_eq!(find_order(&operations), None);
    }

    #[test]
    fn reads_end_in_every_way() {
        let all = all();
        let lasts: Vec<&str> = all.iter().map(|e| e.last).collect();
        for (word, least) in [("old", 10), ("new", 10), ("-", 50)] {
            let ending = lasts.iter().filter(|l| l.split(' ').nth(6) == Some(word));
            assert!(ending.count() >= least, "{word}");
        }
    }

    /// Every example with a give-up is there in both lengths, with the same lines,
    /// as long as the operations have two bytes.
    #[test]
    fn give_ups_are_kept_in_both_lengths() {
        let all = all();
        let (mut twins, mut alone) = (0, 0);
        let examples: Vec<Example> = TABLES.iter().flat_map(|table| read_table(table)).collect();
        for example in &examples {
            let short = in_two_bytes(&example.input);
            let name = example.name.clone() + TWIN;
            match all.iter().find(|e| e.name == name) {
                Some(twin) => {
                    assert_ne!(twin.input, example.input, "{name}");
                    assert_eq!(twin.input, short, "{name}");
                    assert_eq!(output(&twin.input), output(&example.input), "{name}");
                    let long = pieces(&twin.input).into_iter();
                    assert_eq!(long.filter_map(given_up_in_four_bytes).next(), None);
                    twins += 1;
                }
                None if short == example.input => {}
                None => alone += 1,
            }
        }
        assert_eq!(all.len(), examples.len() + twins);
        assert!(twins >= 30 && alone >= 2, "{twins}, {alone}");
    }

    /// 71 bytes in 12 records: each cut inside record k prints the lines
    /// before it and `k no 1`; each cut after record k prints k lines.
    #[test]
    fn the_cuts_of_the_listing() {
        let listing = all().remove(0).input;
        assert_eq!(listing.len(), 4 + 9 + 7 * 6 + 4 + 5 + 7);
        let cuts = String::from_utf8(listing_cuts()).unwrap();
        assert!(cuts.starts_with(
            "1 no 1\n1 no 1\n1 no 1\n1 no 1\n1 ok 0 0 - - -\n1 ok 0 0 - - -\n2 no 1\n"
        ));
        assert!(cuts.ends_with("11 ok 0 0 2 9 -\n12 no 13\n"));
        let ends = cuts.lines().filter(|l| l.ends_with("no 1")).count();
        assert_eq!(ends, listing.len() + 1 - 12);
    }
}
