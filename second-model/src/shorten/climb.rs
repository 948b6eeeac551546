//! Looks for runs that take many steps to shorten, by climbing: a run is changed a
//! little, and the change is kept if the run takes as many steps or more, or now
//! and then a few less.

use super::{shorten_by, Shortening, Work, MOST_RECORDS};
use crate::compare::shortenings::random_file;
use crate::generate::Random;
use crate::model::Step;
use crate::records::{append, pieces, Record};
use std::time::{Duration, Instant};

/// Of so many random files the worst is where a climb begins.
const BEGINNINGS: usize = 300;
/// After so many changes without a worse run the climb goes back to the worst.
const PATIENCE: usize = 400;

/// A run and what it takes to shorten it.
#[derive(Clone)]
pub struct Climbed {
    pub file: Vec<u8>,
    pub work: Work,
}

/// A run with what it takes; none if it is not shortened.
pub fn climbed(file: Vec<u8>) -> Option<Climbed> {
    let (_, work) = shorten_by(&file, Shortening::passes).ok()?;
    Some(Climbed { file, work })
}

/// The worst of some random files.
pub fn beginning(seed: u64) -> Option<Climbed> {
    let files = (0..BEGINNINGS).map(|index| random_file(seed, index));
    files.filter_map(climbed).max_by_key(|run| run.work.steps)
}

/// Climbs from a run for this long and gives the worst run found; each time it is
/// a worse one it is shown.
pub fn climb(from: Climbed, seed: u64, time: Duration, mut show: impl FnMut(&Climbed)) -> Climbed {
    let (begun, mut random) = (Instant::now(), Random::new(seed));
    let (mut here, mut worst, mut since) = (from.clone(), from, 0);
    while begun.elapsed() < time {
        since += 1;
        if since > PATIENCE {
            (here, since) = (worst.clone(), 0);
        }
        let Some(next) = climbed(changed(&here.file, &mut random)) else {
            continue;
        };
        let slack = here.work.steps / random.one_of(&[20, 50, 100, 1000]);
        if next.work.steps + slack >= here.work.steps {
            here = next;
        }
        if here.work.steps > worst.work.steps {
            (worst, since) = (here.clone(), 0);
            show(&worst);
        }
    }
    worst
}

/// A run with one change or a few, cut to 512 records; the last one stays as it
/// is, most often.
fn changed(file: &[u8], random: &mut Random) -> Vec<u8> {
    let mut records: Vec<Vec<u8>> = pieces(file).into_iter().map(<[u8]>::to_vec).collect();
    for _ in 0..random.one_of(&[1, 1, 1, 2, 2, 3, 5, 8]) {
        change(&mut records, random);
    }
    if records.len() > MOST_RECORDS {
        let more = records.len() - MOST_RECORDS;
        let first = random.within(1, records.len() - 1 - more);
        records.drain(first..first + more);
    }
    records.concat()
}

/// Changes some records behind the start.
fn change(records: &mut Vec<Vec<u8>>, random: &mut Random) {
    let last = records.len() - 1;
    let place = random.within(1, last.max(1));
    let size = random.one_of(&[1, 1, 2, 3, 4, 8, 16, 40]);
    let end = last.min(place + size).max(place);
    match random.below(10) {
        0 if random.chance(100) => records[0][3] = random.within(1, 8) as u8,
        0 | 1 => records.insert(place, some_record(random)),
        2 if place < last => records[place] = some_record(random),
        3 if place < last => {
            records.remove(place);
        }
        4 => {
            records.drain(place..end);
        }
        5 | 6 => {
            let block = records[place..end].to_vec();
            let to = random.within(1, records.len() - 1);
            records.splice(to..to, block);
        }
        7 => {
            let block: Vec<Vec<u8>> = records.drain(place..end).collect();
            let to = random.within(1, records.len() - 1);
            records.splice(to..to, block);
        }
        8 => {
            let pattern: Vec<Vec<u8>> = (0..random.within(1, 3))
                .map(|_| some_record(random))
                .collect();
            let size = random.within(2, 24);
            records.splice(place..end, pattern.into_iter().cycle().take(size));
        }
        _ => nudge(&mut records[place], random),
    }
}

/// Changes the last byte of a record's content a little.
fn nudge(record: &mut [u8], random: &mut Random) {
    if let [_, _, _, .., byte] = record {
        let by = random.one_of(&[1, 255, 1, 255, 2, 254]);
        *byte = byte.wrapping_add(by);
    }
}

/// A record with small fields.
fn some_record(random: &mut Random) -> Vec<u8> {
    let highest = random.one_of(&[0, 1, 3, 10, 63]);
    let position = random.within(0, highest) as u16;
    let replica = random.within(1, 9) as u8;
    let object = random.below(3) as u16;
    let step = match random.below(18) {
        0 | 1 => Step::Read { object },
        2 | 3 => Step::Write { object, value: 1 },
        4..8 => Step::Deliver {
            position,
            choice: 0,
        },
        8 | 9 => Step::Lose { position },
        10 | 11 => Step::Repeat { position },
        12 | 13 => Step::Advance { replica },
        14 => Step::GiveUp {
            operation: random.within(1, 200) as u32,
        },
        15 => random.one_of(&[Step::Join, Step::Copy, Step::Copy, Step::Execute]),
        16 => random.one_of(&[Step::Remove { replica }, Step::Tell { replica }]),
        _ => Step::Replace {
            switch: random.within(2, 20) as u16,
        },
    };
    let mut record = Vec::new();
    append(Record::Step(step), &mut record);
    record
}

#[cfg(test)]
mod tests {
    use super::*;

    /// A short climb gives a run that is shortened and takes no fewer steps.
    #[test]
    fn a_short_climb() {
        let from = climbed(random_file(1, 2)).unwrap();
        let steps = from.work.steps;
        let mut shown = Vec::new();
        let worst = climb(from, 1, Duration::from_millis(300), |run| {
            shown.push(run.work.steps);
        });
        assert!(worst.work.steps >= steps);
        assert!(shown.is_sorted());
        assert_eq!(climbed(worst.file).unwrap().work, worst.work);
    }
}
