//! Runs drawn from a seed (document 02, Req 08).

pub mod command;

use crate::model::{Refusal, Start, Step, REPLICAS};
use crate::records::{append, Record};
use crate::run::INPUT_LONGEST;

/// More steps than these are refused by 20.
pub const MOST_STEPS: u64 = 7000;
/// The start's record.
const START_SIZE: usize = 4;
/// The longest record drawn: a write.
const LONGEST_DRAWN: usize = 9;

// 7,000 steps always have room in an input that is run.
const _: () = assert!(START_SIZE + MOST_STEPS as usize * LONGEST_DRAWN <= INPUT_LONGEST);

/// The bits of a draw that are used.
type Used = fn(u32) -> u16;

/// "Its upper 16 bits, u, are used."
pub fn upper(draw: u32) -> u16 {
    (draw >> 16) as u16
}

/// Draws one after the other. "Each draw is (seed times 1,664,525 plus
/// 1,013,904,223) mod 2^32, which is also the next seed."
struct Draws {
    seed: u32,
    used: Used,
}

impl Draws {
    /// The next draw's u.
    fn draw(&mut self) -> u16 {
        let product = self.seed.wrapping_mul(1_664_525);
        self.seed = product.wrapping_add(1_013_904_223);
        (self.used)(self.seed)
    }

    fn object(&mut self) -> u16 {
        self.draw() % 1024
    }

    fn position(&mut self) -> u16 {
        self.draw() % 64
    }

    fn choice(&mut self) -> u8 {
        (self.draw() % 256) as u8
    }

    fn replica(&mut self) -> u8 {
        (self.draw() % 8) as u8 + 1
    }

    /// "One draw gives tag (u mod 10) + 1, then one draw a field in written
    /// order." A value, a switch number and an operation are u as it is.
    fn step(&mut self) -> Step {
        match self.draw() % 10 + 1 {
            1 => Step::Read {
                object: self.object(),
            },
            2 => {
                let object = self.object();
                let value = u32::from(self.draw());
                Step::Write { object, value }
            }
            3 => {
                let position = self.position();
                let choice = self.choice();
                Step::Deliver { position, choice }
            }
            4 => Step::Lose {
                position: self.position(),
            },
            5 => Step::Repeat {
                position: self.position(),
            },
            6 => Step::Advance {
                replica: self.replica(),
            },
            7 => Step::Replace {
                switch: self.draw(),
            },
            8 => Step::Tell {
                replica: self.replica(),
            },
            9 => Step::Remove {
                replica: self.replica(),
            },
            _ => Step::GiveUp {
                operation: u32::from(self.draw()),
            },
        }
    }
}

/// The steps that a seed draws, without end.
pub fn steps(seed: u32) -> impl Iterator<Item = Step> {
    steps_by(seed, upper)
}

/// The same with these bits used.
fn steps_by(seed: u32, used: Used) -> impl Iterator<Item = Step> {
    let mut draws = Draws { seed, used };
    std::iter::repeat_with(move || draws.step())
}

/// The record file of a start with n replicas and so many drawn steps. Refused: 2
/// for n outside 1 to 8, then 20 above 7,000 steps.
pub fn draw(seed: u32, n: u64, count: u64) -> Result<Vec<u8>, Refusal> {
    draw_by(seed, n, count, upper)
}

/// The same with these bits used: the upper ones, or wrong ones in a program that
/// is wrong on purpose.
pub fn draw_by(seed: u32, n: u64, count: u64, used: Used) -> Result<Vec<u8>, Refusal> {
    let replicas = u8::try_from(n).ok().filter(|n| (1..=REPLICAS).contains(n));
    let replicas = replicas.ok_or(Refusal::BadReplicaCount)?;
    if count > MOST_STEPS {
        return Err(Refusal::TooManySteps);
    }
    let mut file = Vec::new();
    append(Record::Start(Start::Chain { replicas }), &mut file);
    for step in steps_by(seed, used).take(count as usize) {
        append(Record::Step(step), &mut file);
    }
    Ok(file)
}

/// The same at the front of a lent buffer; gives the number of bytes. Refused: 2,
/// 20, then 15 if the buffer is shorter than all of them, and nothing is written.
pub fn draw_into(seed: u32, n: u64, count: u64, buffer: &mut [u8]) -> Result<usize, Refusal> {
    let file = draw(seed, n, count)?;
    let place = buffer.get_mut(..file.len());
    place.ok_or(Refusal::BufferTooShort)?.copy_from_slice(&file);
    Ok(file.len())
}

#[cfg(test)]
mod tests {
    use super::*;
    use crate::records::Reader;

    /// `draw 7 3 4`: remove 3; read 334; lose 20; tell 1.
    const VECTOR: [u8; 22] = [
        0x20, 0, 1, 3, 9, 0, 1, 3, 1, 0, 2, 0x01, 0x4e, 4, 0, 2, 0, 0x14, 8, 0, 1, 1,
    ];

    #[test]
    fn the_vector() {
        assert_eq!(draw(7, 3, 4), Ok(VECTOR.to_vec()));
        let steps: Vec<Step> = steps(7).take(4).collect();
        let expected = [
            Step::Remove { replica: 3 },
            Step::Read { object: 334 },
            Step::Lose { position: 20 },
            Step::Tell { replica: 1 },
        ];
        assert_eq!(steps, expected);
    }

    #[test]
    fn the_first_draws_of_a_seed() {
        let mut draws = Draws {
            seed: 7,
            used: upper,
        };
        assert_eq!(draws.draw(), 15_648);
        assert_eq!(draws.seed, 1_025_555_898);
        let mut draws = Draws {
            seed: 0,
            used: upper,
        };
        assert_eq!((draws.draw(), draws.seed), (15_470, 1_013_904_223));
    }

    /// Every start gives the same steps, and fewer steps are the first of more.
    #[test]
    fn n_and_the_number_of_steps_change_nothing_else() {
        let long = draw(99, 1, 300).unwrap();
        for n in 1..=8 {
            for count in [0, 1, 7, 299, 300] {
                let file = draw(99, n, count).unwrap();
                assert_eq!(file[..4], [32, 0, 1, n as u8]);
                assert_eq!(file[4..], long[4..file.len()]);
            }
            assert_eq!(draw(99, n, 0).unwrap(), [32, 0, 1, n as u8]);
        }
    }

    #[test]
    fn refusals_and_their_order() {
        for n in [0, 9, 10, 255, 256, 257, 1 << 32 | 1, u64::MAX] {
            assert_eq!(draw(1, n, 5), Err(Refusal::BadReplicaCount));
            assert_eq!(draw(1, n, 7001), Err(Refusal::BadReplicaCount));
            let refused = draw_into(1, n, 7001, &mut []);
            assert_eq!(refused, Err(Refusal::BadReplicaCount));
        }
        for count in [7001, 65_536, 1 << 32, u64::MAX] {
            assert_eq!(draw(1, 8, count), Err(Refusal::TooManySteps));
            let refused = draw_into(1, 8, count, &mut []);
            assert_eq!(refused, Err(Refusal::TooManySteps));
        }
        assert!(draw(1, 8, 7000).is_ok());
        assert_eq!(Refusal::TooManySteps.number(), 20);
    }

    /// One byte too few: nothing is written. All of them or more: what is beyond
    /// stays as it was.
    #[test]
    fn a_lent_buffer() {
        for (seed, count) in [(7, 4), (7, 0), (8, 100)] {
            let file = draw(seed, 3, count).unwrap();
            for short in [0, 3, file.len() - 1] {
                let mut buffer = vec![77; short];
                let answer = draw_into(seed, 3, count, &mut buffer);
                assert_eq!(answer, Err(Refusal::BufferTooShort));
                assert_eq!(buffer, vec![77; short]);
            }
            for beyond in [0, 1, 50] {
                let mut buffer = vec![77; file.len() + beyond];
                let answer = draw_into(seed, 3, count, &mut buffer);
                assert_eq!(answer, Ok(file.len()));
                assert_eq!(buffer, [&file[..], &vec![77; beyond]].concat());
            }
        }
    }

    #[test]
    fn reading_back_gives_the_drawn_steps_and_the_end() {
        for seed in (0..200).chain([u32::MAX, 1 << 31]) {
            let (n, count) = (u64::from(seed % 8 + 1), u64::from(seed) * 31 % 7001);
            let file = draw(seed, n, count).unwrap();
            let read: Result<Vec<Record>, Refusal> = Reader::new(&file).collect();
            let start = Record::Start(Start::Chain { replicas: n as u8 });
            let steps = steps(seed).take(count as usize).map(Record::Step);
            let drawn: Vec<Record> = std::iter::once(start).chain(steps).collect();
            assert_eq!(read, Ok(drawn), "seed {seed}");
        }
    }

    /// Over every tag and the ends of every field's range.
    #[test]
    fn no_record_drawn_is_longer_than_a_write() {
        let (mut tags, mut longest) = ([0; 11], 0);
        for seed in 0..20 {
            for step in steps(seed).take(7000) {
                let mut record = Vec::new();
                append(Record::Step(step), &mut record);
                tags[usize::from(record[0])] += 1;
                longest = longest.max(record.len());
            }
        }
        assert_eq!((tags[0], longest), (0, LONGEST_DRAWN));
        assert!(tags[1..].iter().all(|&times| times > 13_000), "{tags:?}");
    }

    #[test]
    fn seven_thousand_steps_have_room() {
        let lengths = (0..300).map(|seed| draw(seed * 7_777_777, 8, 7000).unwrap().len());
        let longest = lengths.max().unwrap();
        assert!((35_000..=INPUT_LONGEST).contains(&longest), "{longest}");
    }

    /// Each field stays in its range and reaches both ends of it.
    #[test]
    fn the_ranges_of_the_fields() {
        let mut ranges = [(u32::MAX, 0); 7];
        for step in (0..100).flat_map(|seed| steps(seed).take(7000)) {
            let fields = match step {
                Step::Read { object } => vec![(0, u32::from(object))],
                Step::Write { object, value } => vec![(0, u32::from(object)), (1, value)],
                Step::Deliver { position, choice } => {
                    vec![(2, u32::from(position)), (3, u32::from(choice))]
                }
                Step::Lose { position } | Step::Repeat { position } => {
                    vec![(2, u32::from(position))]
                }
                Step::Advance { replica } | Step::Tell { replica } | Step::Remove { replica } => {
                    vec![(4, u32::from(replica))]
                }
                Step::Replace { switch } => vec![(5, u32::from(switch))],
                Step::GiveUp { operation } => vec![(6, operation)],
                other => panic!("{other:?} drawn"),
            };
            for (field, number) in fields {
                let (lowest, highest) = ranges[field];
                ranges[field] = (lowest.min(number), highest.max(number));
            }
        }
        let [object, value, position, choice, replica, switch, operation] = ranges;
        assert_eq!((object, position, choice), ((0, 1023), (0, 63), (0, 255)));
        assert_eq!(replica, (1, 8));
        for (lowest, highest) in [value, switch, operation] {
            assert!(lowest < 10 && (65_526..=65_535).contains(&highest));
        }
    }
}
