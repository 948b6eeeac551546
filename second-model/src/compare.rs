//! Compares another run program with this model on random files, and looks for
//! an order on small runs.

mod answers;
pub mod draws;
mod quorums;
mod shorten;
pub mod shortenings;
pub mod threads;

pub use quorums::Quorums;
pub use shorten::shorten;

use crate::generate::{generate, length, small_length, Random, KINDS, SMALL};
use crate::model::{Age, Finished, Model, Refusal, Way};
use crate::order::{find_order, history};
use crate::records::{given_up_in_four_bytes, given_up_in_two_bytes, pieces};
use crate::run::{output, walk_by, Outcome};
use crate::words::describe;
use std::fs::{self, File};
use std::io;
use std::path::{Path, PathBuf};
use std::process::{Command, Stdio};

/// What a comparison is asked to do.
#[derive(Clone, Debug)]
pub struct Task {
    pub program: PathBuf,
    pub files: usize,
    pub small: usize,
    pub seed: u64,
    pub keep: PathBuf,
}

/// The highest refusal of a step.
const HIGHEST: usize = 24;

/// Refusals that no run has: those of drawing and shortening.
const OF_NO_RUN: std::ops::RangeInclusive<usize> = 20..=22;

/// How often each answer occurred, and how much was compared.
#[derive(Clone, Debug, Default)]
pub struct Tally {
    pub files: usize,
    pub bytes: usize,
    pub records: usize,
    pub accepted: usize,
    pub finished: usize,
    pub old: usize,
    pub new: usize,
    pub contexts: Contexts,
    pub joins: Joins,
    pub give_ups: GiveUps,
    pub quorums: Quorums,
    pub refusals: [usize; 1 + HIGHEST],
    pub orders: usize,
    pub ordered_operations: usize,
}

/// How often a read of a context finished, by the way of its reply: answered
/// directly, by the tail at once, or by the tail after a rejected direct read.
#[derive(Clone, Copy, Debug, Default)]
pub struct Contexts {
    pub direct: usize,
    pub tail: usize,
    pub rejected: usize,
}

impl Contexts {
    /// Counts a finished operation if it is a read of a context.
    fn count(&mut self, finished: Finished) {
        if finished.values.count() < 2 {
            return;
        }
        match finished.way {
            Way::Direct => self.direct += 1,
            Way::Tail => self.tail += 1,
            Way::SentOn => self.rejected += 1,
            Way::Write => {}
        }
    }

    /// Each way with its name and number.
    pub fn rows(&self) -> [(&'static str, usize); 3] {
        [
            ("context, direct", self.direct),
            ("context, tail", self.tail),
            ("context, rejected", self.rejected),
        ]
    }
}

/// How often a join began, and how often one reached its sixteenth copy.
#[derive(Clone, Copy, Debug, Default)]
pub struct Joins {
    pub begun: usize,
    pub whole: usize,
    copies: usize,
}

impl Joins {
    /// Counts an accepted record with this tag.
    fn count(&mut self, tag: u8) {
        match tag {
            12 => {
                self.begun += 1;
                self.copies = 0;
            }
            13 => {
                self.copies += 1;
                self.whole += usize::from(self.copies == 16);
            }
            _ => {}
        }
    }

    /// Each with its name and number.
    pub fn rows(&self) -> [(&'static str, usize); 2] {
        [("join, begun", self.begun), ("join, whole", self.whole)]
    }
}

/// How often a give-up of each length was accepted and refused.
#[derive(Clone, Copy, Debug, Default)]
pub struct GiveUps {
    pub short: usize,
    pub short_refused: usize,
    pub long: usize,
    pub long_refused: usize,
}

impl GiveUps {
    /// Counts a record if it is a give-up.
    fn count(&mut self, piece: &[u8], outcome: Outcome) {
        let short = given_up_in_two_bytes(piece).is_some();
        let long = given_up_in_four_bytes(piece).is_some();
        match (short, long, outcome) {
            (true, _, Ok(_)) => self.short += 1,
            (true, _, Err(Refusal::NotOpen)) => self.short_refused += 1,
            (_, true, Ok(_)) => self.long += 1,
            (_, true, Err(Refusal::NotOpen)) => self.long_refused += 1,
            _ => {}
        }
    }

    /// Each with its name and number.
    pub fn rows(&self) -> [(&'static str, usize); 4] {
        [
            ("give-up 2, ok", self.short),
            ("give-up 2, no 13", self.short_refused),
            ("give-up 4, ok", self.long),
            ("give-up 4, no 13", self.long_refused),
        ]
    }
}

impl Tally {
    /// Counts a compared file.
    pub fn count(&mut self, input: &[u8]) {
        self.files += 1;
        self.bytes += input.len();
        let pieces = pieces(input);
        let mut quorums = self.quorums;
        let step = |model: &mut Model, step| quorums.step(model, step);
        walk_by(input, step, |number, outcome| {
            self.count_line(outcome);
            let Some(piece) = pieces.get(number.wrapping_sub(1)) else {
                return;
            };
            self.give_ups.count(piece, outcome);
            if outcome.is_ok() {
                self.joins.count(piece[0]);
            }
        });
        self.quorums = quorums;
    }

    /// Counts one line.
    fn count_line(&mut self, outcome: Outcome) {
        self.records += 1;
        let accepted = match outcome {
            Ok(accepted) => accepted,
            Err(refusal) => {
                self.refusals[usize::from(refusal.number())] += 1;
                return;
            }
        };
        self.accepted += 1;
        if let Some(finished) = accepted.finished {
            self.finished += 1;
            self.old += usize::from(finished.age == Age::Old);
            self.new += usize::from(finished.age == Age::New);
            self.contexts.count(finished);
        }
    }

    /// Adds another tally to this one.
    pub fn add(&mut self, other: &Tally) {
        self.files += other.files;
        self.bytes += other.bytes;
        self.records += other.records;
        self.accepted += other.accepted;
        self.finished += other.finished;
        self.old += other.old;
        self.new += other.new;
        self.contexts.direct += other.contexts.direct;
        self.contexts.tail += other.contexts.tail;
        self.contexts.rejected += other.contexts.rejected;
        self.joins.begun += other.joins.begun;
        self.joins.whole += other.joins.whole;
        self.give_ups.short += other.give_ups.short;
        self.give_ups.short_refused += other.give_ups.short_refused;
        self.give_ups.long += other.give_ups.long;
        self.give_ups.long_refused += other.give_ups.long_refused;
        self.quorums.add(&other.quorums);
        self.orders += other.orders;
        self.ordered_operations += other.ordered_operations;
        for (ours, theirs) in self.refusals.iter_mut().zip(other.refusals) {
            *ours += theirs;
        }
    }

    /// The rows about contexts, joins, give-ups and quorum stores.
    pub fn rows(&self) -> impl Iterator<Item = (&'static str, usize)> {
        let rows = self.contexts.rows().into_iter().chain(self.joins.rows());
        rows.chain(self.give_ups.rows()).chain(self.quorums.rows())
    }

    /// The last line and the table of answers.
    pub fn report(&self) -> String {
        let mut text = format!("{:<17} {:>13}\n", "answer", "times");
        let mut row = |name: &str, times| {
            text += &format!("{name:<17} {:>13}\n", with_commas(times));
        };
        row("ok", self.accepted);
        row("finished", self.finished);
        row("old", self.old);
        row("new", self.new);
        for (name, times) in self.rows() {
            row(name, times);
        }
        let answers = self.refusals.iter().enumerate().skip(1);
        for (number, &times) in answers.filter(|(number, _)| !OF_NO_RUN.contains(number)) {
            row(&format!("no {number}"), times);
        }
        text + &format!(
            "compared {} files, {} bytes, {} records (accepted {}), 0 differences; \
             orders found for {} small runs ({} finished operations)\n",
            self.files,
            with_commas(self.bytes),
            with_commas(self.records),
            with_commas(self.accepted),
            self.orders,
            with_commas(self.ordered_operations)
        )
    }
}

/// A number with a comma before each group of three digits.
pub fn with_commas(number: usize) -> String {
    let digits = number.to_string();
    let mut text = String::new();
    for (index, digit) in digits.chars().enumerate() {
        if index > 0 && (digits.len() - index).is_multiple_of(3) {
            text.push(',');
        }
        text.push(digit);
    }
    text
}

/// The files of so many kinds, the first ones, have one run of numbers; those of
/// each later kind have their own.
const FIRST_KINDS: usize = 23;
/// The same for the kinds of small runs.
const FIRST_SMALL: usize = 3;

/// The number by which the file with this index is drawn. A kind that is added
/// leaves those of the others as they were.
fn drawn_by(index: usize) -> usize {
    let (round, place) = (index / KINDS.len(), index % KINDS.len());
    match place.checked_sub(FIRST_KINDS) {
        None => round * FIRST_KINDS + place,
        Some(later) => ((later + 1) << 24) + round,
    }
}

/// The same for a small run, with an index from 0: the first three kinds have one
/// run of numbers behind those of the files.
fn small_drawn_by(files: usize, index: usize) -> usize {
    let (round, place) = (index / SMALL.len(), index % SMALL.len());
    match place.checked_sub(FIRST_SMALL) {
        None => files + round * FIRST_SMALL + place,
        Some(later) => ((later + 1) << 28) + round,
    }
}

/// The file with this index of a comparison: its kind and bytes. Those from
/// `files` on are the small runs, as many with reads of contexts, with joins and
/// with a quorum store as without.
pub fn file(task: &Task, index: usize) -> (&'static str, Vec<u8>) {
    let number = match index.checked_sub(task.files) {
        None => drawn_by(index),
        Some(small) => small_drawn_by(task.files, small),
    };
    let mut random = Random::new(task.seed.wrapping_add((number as u64) << 32));
    random.draw();
    let kind = match index < task.files {
        true => KINDS[index % KINDS.len()].0,
        false => SMALL[(index - task.files) % SMALL.len()],
    };
    let length = match index < task.files {
        true => length(kind, &mut random),
        false => small_length(kind, &mut random),
    };
    let bytes = generate(kind, random.draw(), length).expect("a kind of the list");
    (kind, bytes)
}

/// Runs a program with an input on standard input, by way of a file at this
/// path, and gives what it prints.
pub fn printed(program: &Path, input: &[u8], path: &Path) -> io::Result<Vec<u8>> {
    fs::write(path, input)?;
    let mut command = Command::new(program);
    command.stdin(File::open(path)?).stderr(Stdio::null());
    Ok(command.output()?.stdout)
}

/// The number of the first line in which two outputs differ, from 1.
fn first_difference(ours: &[u8], theirs: &[u8]) -> usize {
    let (a, b) = (ours.split(|&c| c == b'\n'), theirs.split(|&c| c == b'\n'));
    let same = a.zip(b).take_while(|(x, y)| x == y);
    same.count() + 1
}

/// Shortens a file on which the outputs differ and keeps all that is needed to
/// look at it in a folder, whose path is given.
fn keep_difference(task: &Task, name: &str, input: &[u8], path: &Path) -> io::Result<PathBuf> {
    let theirs = printed(&task.program, input, path)?;
    let first = first_difference(&output(input), &theirs);
    let short = shorten(input, first, |candidate| {
        Ok(printed(&task.program, candidate, path)? != output(candidate))
    })?;
    let folder = task.keep.join(name);
    fs::create_dir_all(&folder)?;
    let steps: Vec<String> = pieces(&short).into_iter().map(describe).collect();
    fs::write(folder.join("whole.records"), input)?;
    fs::write(folder.join("short.records"), &short)?;
    fs::write(folder.join("short.steps"), steps.join("\n") + "\n")?;
    fs::write(folder.join("short.ours"), output(&short))?;
    let theirs = printed(&task.program, &short, path)?;
    fs::write(folder.join("short.theirs"), theirs)?;
    Ok(folder)
}

/// Compares one file; a difference is told in words.
pub fn compare_one(
    task: &Task,
    index: usize,
    path: &Path,
    tally: &mut Tally,
) -> io::Result<Option<String>> {
    let (kind, input) = file(task, index);
    let theirs = printed(&task.program, &input, path)?;
    if theirs != output(&input) {
        let name = format!("difference-{}-{index}", task.seed);
        let folder = keep_difference(task, &name, &input, path)?;
        return Ok(Some(format!(
            "difference on file {index} (kind {kind}); see {}",
            folder.display()
        )));
    }
    if index < task.files {
        tally.count(&input);
        return Ok(None);
    }
    let ordered = history(&input, &theirs).filter(|o| find_order(o).is_some());
    let Some(operations) = ordered else {
        let kept = task.keep.join(format!("no-order-{}-{index}", task.seed));
        fs::create_dir_all(&kept)?;
        fs::write(kept.join("whole.records"), &input)?;
        fs::write(kept.join("whole.lines"), &theirs)?;
        return Ok(Some(format!("no order; see {}", kept.display())));
    };
    let finished = operations.iter().filter(|o| o.finished.is_some());
    tally.ordered_operations += finished.count();
    tally.orders += 1;
    Ok(None)
}

/// The refusals that a file can bring about: all but 4 and 15, and those of no run.
pub fn reachable() -> impl Iterator<Item = usize> {
    let far = [Refusal::NumbersUsedUp, Refusal::BufferTooShort];
    let of_runs = (1..=HIGHEST).filter(|number| !OF_NO_RUN.contains(number));
    of_runs.filter(move |number| far.iter().all(|r| usize::from(r.number()) != *number))
}

#[cfg(test)]
mod tests {
    use super::*;
    use crate::words;

    #[test]
    fn commas() {
        assert_eq!(with_commas(0), "0");
        assert_eq!(with_commas(999), "999");
        assert_eq!(with_commas(71_234_567), "71,234,567");
    }

    #[test]
    fn the_first_difference_is_found() {
        assert_eq!(first_difference(b"1 ok\n2 ok\n", b"1 ok\n2 no 7\n"), 2);
        assert_eq!(first_difference(b"1 ok\n2 ok\n", b"1 ok\n"), 2);
        assert_eq!(first_difference(b"1 ok\n", b""), 1);
    }

    #[test]
    fn four_and_fifteen_are_beyond_a_file() {
        let all: Vec<usize> = reachable().collect();
        let expected = [
            1, 2, 3, 5, 6, 7, 8, 9, 10, 11, 12, 13, 14, 16, 17, 18, 19, 23, 24,
        ];
        assert_eq!(all, expected);
    }

    /// A whole join, a refused one, one that the tail's removal ends, and one
    /// under way at the end.
    #[test]
    fn joins_are_counted() {
        let input = words::file(
            "start 2; copy; join; 3 * copy; join; 13 * copy; copy; join; copy; remove 3; join; \
             15 * copy",
        );
        let mut tally = Tally::default();
        tally.count(&input);
        let mut twice = tally.clone();
        twice.add(&tally);
        let times = |tally: &Tally| tally.joins.rows().map(|(_, times)| times);
        assert_eq!((times(&tally), times(&twice)), ([3, 1], [6, 2]));
        assert_eq!((tally.refusals[18], tally.refusals[19]), (1, 2));
        let report = tally.report();
        for line in [
            "join, begun                   3",
            "join, whole                   1",
        ] {
            assert!(report.contains(line), "{report}");
        }
    }

    #[test]
    fn no_two_files_are_drawn_alike() {
        let mut numbers: Vec<usize> = (0..100_000).map(drawn_by).collect();
        let all = KINDS.len();
        let first = (numbers[22], numbers[all], numbers[2 * all]);
        assert_eq!(first, (22, 23, 46));
        assert_eq!((numbers[23], numbers[23 + all]), (1 << 24, (1 << 24) + 1));
        numbers.extend((0..100_000).map(|index| small_drawn_by(100_000, index)));
        numbers.sort_unstable();
        numbers.dedup();
        assert_eq!(numbers.len(), 200_000);
    }

    /// Give-ups of both lengths, and one that ends the run as a fault.
    #[test]
    fn give_ups_are_counted_by_their_length() {
        let input = words::file(
            "start 1; 3 * read 5; give up 1; give up 1; give up 70000; give up 2 in two bytes; \
             give up 3 in two bytes; give up 1 in two bytes; bytes 10 0 3 0 0 1; give up 4",
        );
        let mut tally = Tally::default();
        tally.count(&input);
        let mut twice = tally.clone();
        twice.add(&tally);
        let times = |tally: &Tally| tally.give_ups.rows().map(|(_, times)| times);
        assert_eq!((times(&tally), times(&twice)), ([2, 1, 1, 2], [4, 2, 2, 4]));
        let report = tally.report();
        for line in [
            "give-up 2, ok                 2",
            "give-up 4, no 13              2",
        ] {
            assert!(report.contains(line), "{report}");
        }
    }

    /// A write executed by two of three, one that is dropped for a full link, direct
    /// reads at a follower that lags, one answered and one not, and each 24.
    #[test]
    fn quorum_stores_are_counted() {
        let round =
            "write 5 1; 2 * deliver 0; advance 2; deliver 0; execute; 2 * deliver 0; advance 2";
        let lagging = "write 6 8; 2 * deliver 0; advance 2; deliver 0; execute; read 5; \
                       deliver 2 1; 2 * deliver 2; deliver 1; read 5; deliver 1 1; 3 * deliver 1; \
                       deliver 0";
        let full = "advance 2; 29 * (write 5 1; 2 * deliver 0; advance 2; deliver 0; execute; \
                    2 * deliver 0; advance 2); 2 * (write 5 1; 2 * deliver 0; advance 2; deliver 0)";
        let input = words::file(&format!(
            "start-quorum 3; {round}; {lagging}; {full}; execute; write 5 1; 2 * deliver 0; \
             advance 3; deliver 0; execute; advance 3; lose 0; advance 3; execute; advance 3; \
             execute; execute"
        ));
        let mut tally = Tally::default();
        tally.count(&input);
        let mut twice = tally.clone();
        twice.add(&tally);
        let times = |tally: &Tally| tally.quorums.rows().map(|(_, times)| times);
        assert_eq!(times(&tally), [1, 1, 33, 0, 1, 0, 1]);
        assert_eq!(times(&twice), [2, 2, 66, 0, 2, 0, 2]);
        let report = tally.report();
        for line in [
            "lagging, answered             1",
            "drop, full link               1",
        ] {
            assert!(report.contains(line), "{report}");
        }
    }

    /// Reads of two objects: one by the tail, one directly, one rejected because
    /// of a write that came between; and one refused.
    #[test]
    fn contexts_are_counted_by_their_way() {
        let input = words::file(
            "start 2; read 5 6; 3 * deliver 0; \
             write 5 9; 2 * deliver 0; advance 2; 2 * deliver 0; read 5 6; 3 * deliver 0; \
             read 5 6; deliver 0; write 5 8; 2 * deliver 1; 3 * deliver 0; read 5 5",
        );
        let mut tally = Tally::default();
        tally.count(&input);
        let mut twice = tally.clone();
        twice.add(&tally);
        let times = |tally: &Tally| tally.contexts.rows().map(|(_, times)| times);
        assert_eq!((times(&tally), tally.refusals[16]), ([1, 1, 1], 1));
        assert_eq!((times(&twice), twice.refusals[16]), ([2, 2, 2], 2));
        assert_eq!((tally.finished, tally.old, tally.new), (4, 0, 0));
        let report = tally.report();
        for line in [
            "context, rejected             1",
            "no 16                         1",
        ] {
            assert!(report.contains(line), "{report}");
        }
    }
}
