//! Compares another shortening program with this model (document 02, Req 09).

mod files;

pub use files::{random_file, NUMBERS};

use super::answers::differing;
use super::with_commas;
use crate::records::pieces;
use crate::run::walk;
use crate::shorten::{shorten_by, Shortening, Work};
use std::collections::BTreeMap;
use std::fs::{self, File};
use std::io;
use std::path::{Path, PathBuf};
use std::process::Command;

/// What a comparison of shortenings is asked to do.
#[derive(Clone, Debug)]
pub struct ShortenTask {
    pub program: PathBuf,
    pub files: usize,
    pub seed: u64,
}

/// How much was compared: the shortened files by their last refusal, those that
/// were refused by its number, and the most that a search took.
#[derive(Clone, Debug, Default)]
pub struct ShortenTally {
    pub shortened: BTreeMap<u8, usize>,
    pub refused: BTreeMap<u8, usize>,
    pub records: usize,
    pub kept: usize,
    pub most: Work,
}

impl ShortenTally {
    /// Counts a shortened file, what is kept of it, and what it took.
    fn count(&mut self, input: &[u8], kept: &[u8], work: Work) {
        let mut last = 0;
        walk(input, |_, outcome| {
            last = outcome.map_or_else(|refusal| refusal.number(), |_| 0);
        });
        *self.shortened.entry(last).or_default() += 1;
        self.records += pieces(input).len();
        self.kept += pieces(kept).len();
        self.most = most_of(self.most, work);
    }

    /// Adds another tally to this one.
    pub fn add(&mut self, other: &ShortenTally) {
        for (&number, times) in &other.shortened {
            *self.shortened.entry(number).or_default() += times;
        }
        for (&number, times) in &other.refused {
            *self.refused.entry(number).or_default() += times;
        }
        self.records += other.records;
        self.kept += other.kept;
        self.most = most_of(self.most, other.most);
    }

    /// The tables and the last lines.
    pub fn report(&self) -> String {
        let mut text = format!("{:<17} {:>13}\n", "last refusal", "files");
        for (number, times) in &self.shortened {
            text += &format!("no {number:<14} {:>13}\n", with_commas(*times));
        }
        text += &format!("{:<17} {:>13}\n", "not shortened", "files");
        for (number, times) in &self.refused {
            text += &format!("no {number:<14} {:>13}\n", with_commas(*times));
        }
        let shortened: usize = self.shortened.values().sum();
        let refused: usize = self.refused.values().sum();
        let mean = |records: usize| records as f64 / shortened.max(1) as f64;
        text + &format!(
            "compared {} files ({} refused), 0 differences; of {:.1} records {:.1} are kept \
             on average; at most {} passes and {} steps\n",
            with_commas(shortened + refused),
            with_commas(refused),
            mean(self.records),
            mean(self.kept),
            self.most.passes,
            with_commas(self.most.steps)
        )
    }
}

/// The larger of each figure.
fn most_of(one: Work, other: Work) -> Work {
    Work {
        passes: one.passes.max(other.passes),
        trials: one.trials.max(other.trials),
        steps: one.steps.max(other.steps),
    }
}

/// Compares one file; a difference is told in words, and the file is kept.
pub fn compare_shortening(
    task: &ShortenTask,
    index: usize,
    path: &Path,
    tally: &mut ShortenTally,
) -> io::Result<Option<String>> {
    let input = random_file(task.seed, index);
    let shortened = shorten_by(&input, Shortening::passes);
    let (ours, work) = match shortened {
        Ok((file, work)) => (Ok(file), work),
        Err(refusal) => (Err(refusal), Work::default()),
    };
    fs::write(path, &input)?;
    let mut command = Command::new(&task.program);
    let theirs = command.stdin(File::open(path)?).output()?;
    if let Some(difference) = differing(&ours, &theirs) {
        let name = format!("difference-shorten-{}-{index}.records", task.seed);
        let kept = std::env::temp_dir().join(name);
        fs::write(&kept, &input)?;
        let about = format!("file {index}: {difference}; see {}", kept.display());
        return Ok(Some(about));
    }
    match ours {
        Ok(file) => tally.count(&input, &file, work),
        Err(refusal) => *tally.refused.entry(refusal.number()).or_default() += 1,
    }
    Ok(None)
}
