//! A shorter run that is still turned down (document 02, Req 09).

pub mod built;
pub mod climb;

use crate::model::{Model, Refusal, Start, Step};
use crate::records::{read, Record};
use crate::run::INPUT_LONGEST;

/// A run of more records, "the start counted", is refused by 22.
pub const MOST_RECORDS: usize = 512;

/// What it took to shorten a run: the passes, with the last one, which drops none;
/// the trials; and the steps that these made, the start not counted.
#[derive(Clone, Copy, Debug, Default, PartialEq, Eq)]
pub struct Work {
    pub passes: usize,
    pub trials: usize,
    pub steps: usize,
}

/// A step with the bytes of its record.
type Kept<'a> = (Step, &'a [u8]);

/// A run whose last record is refused by its step, as far as it is kept.
pub struct Shortening<'a> {
    start: (Start, &'a [u8]),
    between: Vec<Kept<'a>>,
    last: Kept<'a>,
    refusal: Refusal,
    work: Work,
}

/// The start of an input and its bytes. Refused by 1 or 2.
fn read_start(input: &[u8]) -> Result<(Start, &[u8]), Refusal> {
    let Some((Record::Start(start), size)) = read(input) else {
        return Err(Refusal::BadRecord);
    };
    Model::start(start)?;
    Ok((start, &input[..size]))
}

/// The steps behind the start. Refused by 1.
fn read_steps(mut rest: &[u8]) -> Result<Vec<Kept<'_>>, Refusal> {
    let mut steps = Vec::new();
    while !rest.is_empty() {
        let Some((Record::Step(step), size)) = read(rest) else {
            return Err(Refusal::BadRecord);
        };
        let (record, after) = rest.split_at(size);
        steps.push((step, record));
        rest = after;
    }
    Ok(steps)
}

/// What the last of some steps after a start is refused by, if it is.
fn last_refusal(start: Start, steps: impl Iterator<Item = Step>) -> Option<Refusal> {
    let mut model = Model::start(start).ok()?;
    let mut answer = Ok(None);
    for step in steps {
        answer = model.step(step);
    }
    answer.err()
}

impl<'a> Shortening<'a> {
    /// The whole of an input. Refused, in this order: 14; 1 or 2, "as the run meets
    /// them"; 22; 21.
    fn new(input: &'a [u8]) -> Result<Self, Refusal> {
        if input.len() > INPUT_LONGEST {
            return Err(Refusal::InputTooLong);
        }
        let start = read_start(input)?;
        let mut between = read_steps(&input[start.1.len()..])?;
        if 1 + between.len() > MOST_RECORDS {
            return Err(Refusal::TooManyRecords);
        }
        let refusal = last_refusal(start.0, between.iter().map(|&(step, _)| step));
        let (Some(refusal), Some(last)) = (refusal, between.pop()) else {
            return Err(Refusal::LastNotRefused);
        };
        Ok(Shortening {
            start,
            between,
            last,
            refusal,
            work: Work::default(),
        })
    }

    /// How many records are kept between the start and the last one.
    pub fn between(&self) -> usize {
        self.between.len()
    }

    /// Drops the record at this place, from 0, of those between, if the last one is
    /// refused with the same number without it; says whether it did.
    pub fn drop(&mut self, place: usize) -> bool {
        let (before, after) = (&self.between[..place], &self.between[place + 1..]);
        let others = before.iter().chain(after).chain([&self.last]);
        let refusal = last_refusal(self.start.0, others.map(|&(step, _)| step));
        self.work.trials += 1;
        self.work.steps += self.between.len();
        let stands = refusal == Some(self.refusal);
        if stands {
            self.between.remove(place);
        }
        stands
    }

    /// "Try to drop those between one at a time, from the last towards the first;
    /// a drop that leaves the number stands at once." Says whether one did.
    pub fn pass(&mut self) -> bool {
        self.work.passes += 1;
        let before = self.between();
        for place in (0..before).rev() {
            self.drop(place);
        }
        self.between() < before
    }

    /// "Go round until a whole pass drops none."
    pub fn passes(&mut self) {
        while self.pass() {}
    }

    /// The bytes of what is kept.
    fn file(&self) -> Vec<u8> {
        let between = self.between.iter().chain([&self.last]);
        let records = between.map(|&(_, record)| record);
        let all: Vec<&[u8]> = std::iter::once(self.start.1).chain(records).collect();
        all.concat()
    }
}

/// The kept records of a run whose last record is refused by its step. Refused:
/// 14, 1 or 2, 22, 21.
pub fn shorten(input: &[u8]) -> Result<Vec<u8>, Refusal> {
    let (file, _) = shorten_by(input, Shortening::passes)?;
    Ok(file)
}

/// The same, and what it took, by this search: `Shortening::passes`, or a wrong
/// one in a program that is wrong on purpose.
pub fn shorten_by<'a>(
    input: &'a [u8],
    search: impl FnOnce(&mut Shortening<'a>),
) -> Result<(Vec<u8>, Work), Refusal> {
    let mut shortening = Shortening::new(input)?;
    search(&mut shortening);
    Ok((shortening.file(), shortening.work))
}

/// The kept records at the front of a lent buffer; gives the number of bytes.
/// Refused as above, then by 15 if the buffer is shorter, and nothing is written.
pub fn shorten_into(input: &[u8], buffer: &mut [u8]) -> Result<usize, Refusal> {
    let file = shorten(input)?;
    let place = buffer.get_mut(..file.len());
    let place = place.ok_or(Refusal::BufferTooShort)?;
    place.copy_from_slice(&file);
    Ok(file.len())
}

#[cfg(test)]
mod tests;
