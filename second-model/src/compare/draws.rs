//! Compares another drawing program with this model, and the lines of the longer
//! drawn runs (document 02, Req 08).

use super::answers::differing;
use super::{first_difference, printed, with_commas};
use crate::draw::{command, draw};
use crate::generate::Random;
use crate::run::{output, walk};
use std::io;
use std::path::{Path, PathBuf};
use std::process::{Command, Stdio};

/// Drawn runs with so many steps are run too.
const RUN_FROM: usize = 1000;
/// Of so many draws one is refused, and one is at a limit of the steps.
const ROUND: usize = 50;

/// What a comparison of draws is asked to do.
#[derive(Clone, Debug)]
pub struct DrawTask {
    pub draw: PathBuf,
    pub run: PathBuf,
    pub draws: usize,
    pub seed: u64,
}

/// How much was compared.
#[derive(Clone, Copy, Debug, Default)]
pub struct DrawTally {
    pub draws: usize,
    pub refusals: usize,
    pub steps: usize,
    pub bytes: usize,
    pub runs: usize,
    pub lines: usize,
    pub finished: usize,
}

impl DrawTally {
    /// Adds another tally to this one.
    pub fn add(&mut self, other: &DrawTally) {
        self.draws += other.draws;
        self.refusals += other.refusals;
        self.steps += other.steps;
        self.bytes += other.bytes;
        self.runs += other.runs;
        self.lines += other.lines;
        self.finished += other.finished;
    }

    /// The last lines.
    pub fn report(&self) -> String {
        format!(
            "compared {} draws ({} refused), {} steps, {} bytes, 0 differences\n\
             compared the lines of {} runs of 1,000 steps or more, {} lines; \
             {} operations finished in them\n",
            with_commas(self.draws),
            with_commas(self.refusals),
            with_commas(self.steps),
            with_commas(self.bytes),
            with_commas(self.runs),
            with_commas(self.lines),
            with_commas(self.finished)
        )
    }
}

/// The words that follow the program's name.
type Words = [String; 3];

/// The words of the draw with this index. Each limit of the steps comes with each
/// n in turn.
pub fn words(seed: u64, index: usize) -> Words {
    let mut random = Random::new(seed.wrapping_add((index as u64) << 32));
    random.draw();
    let any = random.draw() as u32;
    let drawn = random.one_of(&[any, any, any, any, any, any, 0, 1, u32::MAX]);
    let (round, place) = (index / ROUND, index % ROUND);
    let (n, steps) = match place {
        0 => refused(&mut random, round),
        1 => {
            let steps = [0, 1, 6999, 7000][round % 4];
            ((round / 4 % 8 + 1).to_string(), steps.to_string())
        }
        _ => {
            let steps = some_steps(&mut random);
            (random.within(1, 8).to_string(), steps.to_string())
        }
    };
    [drawn.to_string(), n, steps]
}

/// A number of steps: most below 1,000, one in seven from there to 7,000.
fn some_steps(random: &mut Random) -> usize {
    match random.below(7) {
        0 => random.within(RUN_FROM, 7000),
        _ => random.below(RUN_FROM),
    }
}

/// An n or a number of steps that is refused, or both.
fn refused(random: &mut Random, round: usize) -> (String, String) {
    let n = ["0", "9", "255", "10", "256", "4294967297"];
    let n = n.into_iter().chain(["18446744073709551617"]);
    let steps = ["7001", "7002", "65536", "4294967296", "4294967297"];
    let steps = steps.into_iter().chain(["18446744073709551617"]);
    let nth = round / 3;
    let n = n.cycle().nth(nth).map(String::from).unwrap_or_default();
    let steps = steps.cycle().nth(nth).map(String::from).unwrap_or_default();
    match round % 3 {
        0 => (n, random.below(7001).to_string()),
        1 => (random.within(1, 8).to_string(), steps),
        _ => (n, steps),
    }
}

/// Compares one draw; a difference is told in words.
pub fn compare_draw(
    task: &DrawTask,
    index: usize,
    path: &Path,
    tally: &mut DrawTally,
) -> io::Result<Option<String>> {
    let words = words(task.seed, index);
    let ours = command::answer(&words, draw).expect("words that draw or are refused");
    let theirs = Command::new(&task.draw)
        .args(&words)
        .stdin(Stdio::null())
        .output()?;
    if let Some(difference) = differing(&ours, &theirs) {
        return Ok(Some(format!("draw {}: {difference}", words.join(" "))));
    }
    tally.draws += 1;
    let Ok(file) = ours else {
        tally.refusals += 1;
        return Ok(None);
    };
    let steps: usize = words[2].parse().expect("a number of steps");
    tally.steps += steps;
    tally.bytes += file.len();
    if steps < RUN_FROM {
        return Ok(None);
    }
    let (ours, theirs) = (output(&file), printed(&task.run, &file, path)?);
    if ours != theirs {
        let line = first_difference(&ours, &theirs);
        let draw = words.join(" ");
        return Ok(Some(format!("run of draw {draw}: line {line} differs")));
    }
    tally.runs += 1;
    walk(&file, |_, outcome| {
        tally.lines += 1;
        tally.finished += usize::from(outcome.is_ok_and(|accepted| accepted.finished.is_some()));
    });
    Ok(None)
}

#[cfg(test)]
mod tests {
    use super::*;
    use crate::model::Refusal;
    use std::collections::BTreeSet;

    /// Over the draws of a whole comparison: every n, every limit of the steps with
    /// every n, both refusals in every form, the mean and the runs.
    #[test]
    fn the_draws_of_a_comparison() {
        let (mut replicas, mut limits) = (BTreeSet::new(), BTreeSet::new());
        let mut refused = BTreeSet::new();
        let (mut twos, mut twenties, mut steps, mut runs) = (0, 0, 0, 0);
        for index in 0..10_000 {
            let [seed, n, count] = words(1, index);
            let words = [seed, n.clone(), count.clone()];
            match command::answer(&words, draw).unwrap() {
                Ok(_) => {
                    let (n, count): (u8, usize) = (n.parse().unwrap(), count.parse().unwrap());
                    replicas.insert(n);
                    steps += count;
                    runs += usize::from(count >= RUN_FROM);
                    if [0, 1, 6999, 7000].contains(&count) {
                        limits.insert((n, count));
                    }
                }
                Err(refusal) => {
                    twos += usize::from(refusal == Refusal::BadReplicaCount);
                    twenties += usize::from(refusal == Refusal::TooManySteps);
                    refused.extend([n, count]);
                }
            }
        }
        assert!(replicas.into_iter().eq(1..=8));
        assert_eq!((limits.len(), twos + twenties), (32, 200));
        assert!(twos >= 100 && twenties >= 50, "{twos}, {twenties}");
        for word in ["0", "9", "255", "7001", "18446744073709551617"] {
            assert!(refused.contains(word), "{word}");
        }
        assert!((800..1200).contains(&(steps / 10_000)), "{steps}");
        assert!(runs >= 1300, "{runs}");
    }
}
