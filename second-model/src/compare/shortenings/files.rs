//! Files to be shortened: runs of up to 512 records that end in a refusal of every
//! number in their reach, and files that are refused.

use crate::draw::draw;
use crate::generate::{generate, Random, KINDS};
use crate::model::{Few, Step};
use crate::records::{append, pieces, read, Record};
use crate::run::{walk, INPUT_LONGEST};
use crate::shorten::built::built;
use crate::shorten::MOST_RECORDS;

/// The numbers by which the last of 512 records can be refused.
pub const NUMBERS: [u8; 16] = [3, 5, 6, 7, 8, 9, 10, 11, 12, 13, 16, 17, 18, 19, 23, 24];

/// Of so many files, each number has one; the others are of other sorts.
const ROUND: usize = NUMBERS.len() + 6;
/// The bytes of a run with 600 records or more.
const LENGTH: usize = 6000;

/// The file with this index of a comparison.
pub fn random_file(seed: u64, index: usize) -> Vec<u8> {
    let mut random = Random::new(seed.wrapping_add((index as u64) << 32));
    random.draw();
    let (round, place) = (index / ROUND, index % ROUND);
    if let Some(&number) = NUMBERS.get(place) {
        return ending_in(number, &mut random);
    }
    match place - NUMBERS.len() {
        0 => with_end(MOST_RECORDS - 1, &mut random),
        1 => too_many(round, &mut random),
        2 => not_refused(round, &mut random),
        3 => not_run(round, &mut random),
        4 => drawn(&mut random),
        _ if round % 2 == 1 => slow(&mut random),
        _ => of_any_kind(&mut random),
    }
}

/// The kinds of runs in which this number comes up within 512 records, in one of
/// seven or more; none named where most kinds do.
fn kinds(number: u8) -> &'static [&'static str] {
    match number {
        5 => &["full-open", "contexts"],
        6 => &["full-waiting", "contexts", "joins"],
        11 => &["replacements", "limits", "give-ups"],
        12 => &["limits", "context-faults", "joins", "join-faults"],
        16 => &["context-faults"],
        17 => &["joins", "join-faults"],
        18 | 19 => &["joins", "join-faults", "small-joins"],
        23 => &["quorum-faults", "chain-executes"],
        24 => &["quorum", "quorum-full", "quorum-acks", "quorum-faults"],
        _ => &[],
    }
}

/// A run of some kind, up to its first fault and at most so many records.
fn some_run(number: u8, most: usize, random: &mut Random) -> Vec<u8> {
    let kind = match kinds(number) {
        [] => random.one_of(&KINDS).0,
        kinds => random.one_of(kinds),
    };
    let file = generate(kind, random.draw(), LENGTH).expect("a kind of the list");
    cut(&file, most)
}

/// The sound records at the front of a file, at most so many.
fn cut(file: &[u8], most: usize) -> Vec<u8> {
    let records = pieces(file).into_iter().take(most);
    let sound = records.enumerate().take_while(|(place, piece)| {
        let start = matches!(read(piece), Some((Record::Start(_), _)));
        read(piece).is_some() && start == (*place == 0)
    });
    let sound: Vec<&[u8]> = sound.map(|(_, piece)| piece).collect();
    sound.concat()
}

/// The places, from 0, of the records that are refused by their step, with the
/// numbers.
fn refused(file: &[u8]) -> Vec<(usize, u8)> {
    let mut refused = Vec::new();
    walk(file, |line, outcome| {
        if let Err(refusal) = outcome {
            refused.push((line.wrapping_sub(1), refusal.number()));
        }
    });
    let by_step = |number: u8| NUMBERS.contains(&number);
    refused.retain(|&(_, number)| by_step(number));
    refused
}

/// A run that ends in a refusal of this number: half of them at the last one within
/// 512 records, the others at any.
fn ending_in(number: u8, random: &mut Random) -> Vec<u8> {
    loop {
        let file = some_run(number, MOST_RECORDS, random);
        let mut places = refused(&file);
        places.retain(|&(_, other)| other == number);
        let Some(&last) = places.last() else {
            continue;
        };
        let (place, _) = match random.chance(500) {
            true => last,
            false => random.one_of(&places),
        };
        return cut(&file, place + 1);
    }
}

/// A run of so many records and one more that is refused behind them.
fn with_end(records: usize, random: &mut Random) -> Vec<u8> {
    loop {
        let file = some_run(0, records, random);
        if pieces(&file).len() < records {
            continue;
        }
        if let Some(longer) = with_refused_step(&file, random) {
            return longer;
        }
    }
}

/// A run with a step behind it that is refused, if a few tries find one.
fn with_refused_step(file: &[u8], random: &mut Random) -> Option<Vec<u8>> {
    for _ in 0..20 {
        let step = likely_refused(random);
        let mut longer = file.to_vec();
        append(Record::Step(step), &mut longer);
        let last = pieces(file).len();
        if refused(&longer).iter().any(|&(place, _)| place == last) {
            return Some(longer);
        }
    }
    None
}

/// A step that many states refuse.
fn likely_refused(random: &mut Random) -> Step {
    let (position, replica) = (random.below(64) as u16, random.below(10) as u8);
    let operation = random.below(200) as u32;
    match random.below(12) {
        0 => Step::Read {
            object: random.one_of(&[0, 1024]),
        },
        1 => Step::Context {
            objects: Few::new(&[5, 6, 5]),
        },
        2 => Step::Lose { position },
        3 => Step::Deliver {
            position,
            choice: 0,
        },
        4 => Step::Repeat { position },
        5 => Step::Advance { replica },
        6 => Step::Remove { replica },
        7 => Step::Replace { switch: 1 },
        8 => Step::Join,
        9 => Step::Copy,
        10 => Step::Execute,
        _ => Step::GiveUp { operation },
    }
}

/// More than 512 records: exactly 513 or more, the last one refused or not, and at
/// times with a fault at the end.
fn too_many(round: usize, random: &mut Random) -> Vec<u8> {
    let more = random.within(MOST_RECORDS + 1, 580);
    match round % 4 {
        0 => with_end(MOST_RECORDS, random),
        1 => with_end(more, random),
        2 => accepted_at_the_end(MOST_RECORDS, random),
        _ => [with_end(more, random), vec![99, 0, 0]].concat(),
    }
}

/// A run of so many records and one more that is accepted.
fn accepted_at_the_end(records: usize, random: &mut Random) -> Vec<u8> {
    loop {
        let mut file = some_run(0, records, random);
        if pieces(&file).len() < records {
            continue;
        }
        append(Record::Step(Step::Tell { replica: 1 }), &mut file);
        if refused(&file).iter().all(|&(place, _)| place != records) {
            return file;
        }
    }
}

/// A run whose last record is accepted, of any length up to 512 or exactly 512; or
/// a start alone.
fn not_refused(round: usize, random: &mut Random) -> Vec<u8> {
    let any = random.within(1, MOST_RECORDS - 1);
    match round % 3 {
        0 => accepted_at_the_end(any, random),
        1 => accepted_at_the_end(MOST_RECORDS - 1, random),
        _ => vec![random.one_of(&[32, 33]), 0, 1, random.one_of(&[3, 5, 7])],
    }
}

/// A file that does not run to its end: too long, with a bad start, with a fault
/// somewhere, or empty.
fn not_run(round: usize, random: &mut Random) -> Vec<u8> {
    let number = random.one_of(&NUMBERS);
    let mut file = ending_in(number, random);
    let faulty = generate("damaged", random.draw(), LENGTH).expect("a kind of the list");
    match round % 6 {
        0 => file.resize(INPUT_LONGEST + random.within(1, 9), 0),
        1 => file[3] = random.one_of(&[0, 9, 10, 255]),
        2 => file.truncate(file.len() - 1),
        3 => file.extend_from_slice(&[32, 0, 1, random.below(10) as u8]),
        4 => file = faulty,
        _ => file.clear(),
    }
    file
}

/// A drawn run (Req 08) that ends in its last refusal within 512 records.
fn drawn(random: &mut Random) -> Vec<u8> {
    let n = random.within(1, 8) as u64;
    let file = draw(random.draw() as u32, n, 511).expect("no refusal");
    let places = refused(&file);
    let last = places.last().map_or(0, |&(place, _)| place);
    cut(&file, last + 1)
}

/// A run built to take many passes.
fn slow(random: &mut Random) -> Vec<u8> {
    let blocks = random.within(1, 4);
    let losses: Vec<u16> = (0..blocks).map(|_| random.within(1, 20) as u16).collect();
    built(&losses)
}

/// A run of any kind that ends in any refusal, if it has one.
fn of_any_kind(random: &mut Random) -> Vec<u8> {
    let file = some_run(0, MOST_RECORDS, random);
    let places = refused(&file);
    match places.as_slice() {
        [] => file,
        places => cut(&file, random.one_of(places).0 + 1),
    }
}

#[cfg(test)]
mod tests {
    use super::*;
    use crate::model::Refusal;
    use crate::shorten::{shorten_by, Shortening};
    use std::collections::BTreeMap;

    /// What would be the answer, without a search.
    fn answer(file: &[u8]) -> Result<u8, u8> {
        let shortened = shorten_by(file, |_| {});
        let last = refused(file).last().map_or(0, |&(_, number)| number);
        shortened.map(|_| last).map_err(Refusal::number)
    }

    /// Over the files of a whole comparison every number in reach is the last
    /// refusal, and every refusal of shortening but 15 occurs.
    #[test]
    fn the_files_of_a_comparison() {
        let mut seen: BTreeMap<Result<u8, u8>, usize> = BTreeMap::new();
        let (mut whole, mut one_more) = (0, 0);
        for index in 0..1000 {
            let file = random_file(1, index);
            let answer = answer(&file);
            *seen.entry(answer).or_default() += 1;
            let records = pieces(&file).len();
            whole += usize::from(answer.is_ok() && records == 512);
            one_more += usize::from(answer == Err(22) && records == 513);
        }
        println!("{seen:?}, 512 records {whole}, 513 records {one_more}");
        for number in NUMBERS {
            let times = seen.get(&Ok(number)).copied().unwrap_or(0);
            assert!(times >= 45, "{number}: {times}");
        }
        for number in [1, 2, 14, 21, 22] {
            let times = seen.get(&Err(number)).copied().unwrap_or(0);
            assert!(times >= 6, "{number}: {times}");
        }
        assert_eq!(seen.len(), NUMBERS.len() + 5);
        assert!(whole >= 45 && one_more >= 20, "{whole}, {one_more}");
    }

    /// From the first towards the last.
    fn upwards(run: &mut Shortening) {
        loop {
            let before = run.between();
            let mut place = 0;
            while place < run.between() {
                place += usize::from(!run.drop(place));
            }
            if run.between() == before {
                return;
            }
        }
    }

    /// Again from the last after each drop.
    fn again_from_the_last(run: &mut Shortening) {
        while (0..run.between()).rev().any(|place| run.drop(place)) {}
    }

    /// One pass only.
    fn once(run: &mut Shortening) {
        run.pass();
    }

    /// The files tell other searches from the passes.
    #[test]
    fn other_searches_are_noticed() {
        type Search = fn(&mut Shortening);
        let searches: [(&str, Search); 3] = [
            ("upwards", upwards),
            ("again from the last", again_from_the_last),
            ("once", once),
        ];
        let mut noticed = [0; 3];
        for index in 0..160 {
            let file = random_file(1, index);
            let Ok((kept, _)) = shorten_by(&file, Shortening::passes) else {
                continue;
            };
            for (times, (_, search)) in noticed.iter_mut().zip(searches) {
                let (other, _) = shorten_by(&file, search).unwrap();
                *times += usize::from(other != kept);
            }
        }
        for ((name, _), times) in searches.iter().zip(noticed) {
            println!("{name}: another answer for {times} of 160 files");
        }
        assert!(noticed.iter().all(|&times| times >= 3), "{noticed:?}");
    }
}
