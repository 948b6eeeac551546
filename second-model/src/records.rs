//! Records: "a one-byte tag, a two-byte length, the content" (document 01;
//! document 02, Req 02, Req 04, Req 07 and Req 11).
//!
//! A give-up has four bytes for its operation. Those with two are still read and
//! mean the same number, but are not written.

use crate::model::{Objects, Refusal, Start, Step, MOST};

/// The longest record: a read of eight objects.
pub const LONGEST: usize = 3 + 2 * MOST;

/// One record of a file: the start, or a step after it.
#[derive(Clone, Copy, Debug, PartialEq, Eq)]
pub enum Record {
    Start(Start),
    Step(Step),
}

/// Walks the records of one lent input; it ends after the first fault.
pub struct Reader<'a> {
    rest: &'a [u8],
}

impl<'a> Reader<'a> {
    /// A reader at the beginning of an input.
    pub fn new(input: &'a [u8]) -> Self {
        Reader { rest: input }
    }
}

impl Iterator for Reader<'_> {
    type Item = Result<Record, Refusal>;

    fn next(&mut self) -> Option<Self::Item> {
        if self.rest.is_empty() {
            return None;
        }
        let record = read(self.rest);
        let taken = record.map_or(self.rest.len(), |(_, size)| size);
        self.rest = &self.rest[taken..];
        Some(record.map(|(record, _)| record).ok_or(Refusal::BadRecord))
    }
}

/// The record at the front of some bytes, and its size; nothing for an unknown
/// tag, a wrong length or an early end.
pub fn read(bytes: &[u8]) -> Option<(Record, usize)> {
    let (&[tag, high, low], rest) = bytes.split_first_chunk::<3>()?;
    let length = usize::from(two(high, low));
    let content = rest.get(..length)?;
    Some((meaning(tag, content)?, 3 + length))
}

/// Two bytes as a number, highest first.
fn two(high: u8, low: u8) -> u16 {
    u16::from_be_bytes([high, low])
}

/// What tag and content say, by the table of "Steps and their records".
fn meaning(tag: u8, content: &[u8]) -> Option<Record> {
    let step = match (tag, content) {
        (32, &[replicas]) => return Some(Record::Start(Start::Chain { replicas })),
        (33, &[replicas]) => return Some(Record::Start(Start::Quorum { replicas })),
        (1, &[a, b]) => Step::Read { object: two(a, b) },
        (2, &[a, b, c, d, e, f]) => Step::Write {
            object: two(a, b),
            value: u32::from_be_bytes([c, d, e, f]),
        },
        (3, &[a, b, choice]) => Step::Deliver {
            position: two(a, b),
            choice,
        },
        (4, &[a, b]) => Step::Lose {
            position: two(a, b),
        },
        (5, &[a, b]) => Step::Repeat {
            position: two(a, b),
        },
        (6, &[replica]) => Step::Advance { replica },
        (7, &[a, b]) => Step::Replace { switch: two(a, b) },
        (8, &[replica]) => Step::Tell { replica },
        (9, &[replica]) => Step::Remove { replica },
        (10, &[a, b]) => Step::GiveUp {
            operation: u32::from(two(a, b)),
        },
        (10, &[a, b, c, d]) => Step::GiveUp {
            operation: u32::from_be_bytes([a, b, c, d]),
        },
        (11, pairs) if matches!(pairs.len(), 4 | 6 | 8 | 10 | 12 | 14 | 16) => Step::Context {
            objects: pairs.chunks_exact(2).map(|p| two(p[0], p[1])).collect(),
        },
        (12, &[]) => Step::Join,
        (13, &[]) => Step::Copy,
        (14, &[]) => Step::Execute,
        _ => return None,
    };
    Some(Record::Step(step))
}

/// The bytes of a record and how many they are.
type LaidOut = ([u8; LONGEST], usize);

/// A tag with its content.
fn tagged(tag: u8, content: &[u8]) -> LaidOut {
    let size = 3 + content.len();
    let mut bytes = [0; LONGEST];
    bytes[0] = tag;
    bytes[2] = content.len() as u8;
    bytes[3..size].copy_from_slice(content);
    (bytes, size)
}

/// A read of several objects; 1 for another number than 2 to 8.
fn context(objects: Objects) -> Result<LaidOut, Refusal> {
    if !objects.is_context() {
        return Err(Refusal::BadRecord);
    }
    let mut content = [0; 2 * MOST];
    for (pair, object) in content.chunks_exact_mut(2).zip(objects.each()) {
        pair.copy_from_slice(&object.to_be_bytes());
    }
    Ok(tagged(11, &content[..2 * objects.count()]))
}

/// A record laid out by the table of "Steps and their records".
fn laid_out(record: Record) -> Result<LaidOut, Refusal> {
    let pair = |tag, number: u16| tagged(tag, &number.to_be_bytes());
    let step = match record {
        Record::Start(Start::Chain { replicas }) => return Ok(tagged(32, &[replicas])),
        Record::Start(Start::Quorum { replicas }) => return Ok(tagged(33, &[replicas])),
        Record::Step(step) => step,
    };
    Ok(match step {
        Step::Read { object } => pair(1, object),
        Step::Write { object, value } => {
            let [a, b] = object.to_be_bytes();
            let [c, d, e, f] = value.to_be_bytes();
            tagged(2, &[a, b, c, d, e, f])
        }
        Step::Deliver { position, choice } => {
            let [a, b] = position.to_be_bytes();
            tagged(3, &[a, b, choice])
        }
        Step::Lose { position } => pair(4, position),
        Step::Repeat { position } => pair(5, position),
        Step::Advance { replica } => tagged(6, &[replica]),
        Step::Replace { switch } => pair(7, switch),
        Step::Tell { replica } => tagged(8, &[replica]),
        Step::Remove { replica } => tagged(9, &[replica]),
        Step::GiveUp { operation } => tagged(10, &operation.to_be_bytes()),
        Step::Context { objects } => context(objects)?,
        Step::Join => tagged(12, &[]),
        Step::Copy => tagged(13, &[]),
        Step::Execute => tagged(14, &[]),
    })
}

/// Writes a record at the front of a lent buffer and gives its size; a read of
/// another number of objects than 2 to 8 gives 1, then a buffer shorter than
/// the record gives 15, and the buffer stays as it was.
pub fn write(record: Record, buffer: &mut [u8]) -> Result<usize, Refusal> {
    let (bytes, size) = laid_out(record)?;
    let place = buffer.get_mut(..size).ok_or(Refusal::BufferTooShort)?;
    place.copy_from_slice(&bytes[..size]);
    Ok(size)
}

/// Adds a record to the end of a file under way.
///
/// Panics if it is a read of another number of objects than 2 to 8.
pub fn append(record: Record, file: &mut Vec<u8>) {
    let (bytes, size) = laid_out(record).expect("a record of the table");
    file.extend_from_slice(&bytes[..size]);
}

/// Adds a give-up with length 2 to the end of a file under way.
pub fn append_in_two_bytes(operation: u16, file: &mut Vec<u8>) {
    file.extend_from_slice(&[10, 0, 2]);
    file.extend_from_slice(&operation.to_be_bytes());
}

/// The operation of a give-up that is laid out with length 2.
pub fn given_up_in_two_bytes(piece: &[u8]) -> Option<u16> {
    match *piece {
        [10, 0, 2, a, b] => Some(two(a, b)),
        _ => None,
    }
}

/// The operation of a give-up that is laid out with length 4.
pub fn given_up_in_four_bytes(piece: &[u8]) -> Option<u32> {
    match *piece {
        [10, 0, 4, a, b, c, d] => Some(u32::from_be_bytes([a, b, c, d])),
        _ => None,
    }
}

/// A file with length 2 for each give-up whose operation has two bytes.
pub fn in_two_bytes(file: &[u8]) -> Vec<u8> {
    let mut short = Vec::with_capacity(file.len());
    for piece in pieces(file) {
        let operation = given_up_in_four_bytes(piece).and_then(|o| u16::try_from(o).ok());
        match operation {
            Some(operation) => append_in_two_bytes(operation, &mut short),
            None => short.extend_from_slice(piece),
        }
    }
    short
}

/// A file with length 4 for each give-up.
pub fn in_four_bytes(file: &[u8]) -> Vec<u8> {
    let mut long = Vec::with_capacity(file.len());
    for piece in pieces(file) {
        match given_up_in_two_bytes(piece).map(u32::from) {
            Some(operation) => append(Record::Step(Step::GiveUp { operation }), &mut long),
            None => long.extend_from_slice(piece),
        }
    }
    long
}

/// The pieces of a file by the lengths its records state; what is too short
/// for a record is the last piece.
pub fn pieces(file: &[u8]) -> Vec<&[u8]> {
    let mut pieces = Vec::new();
    let mut rest = file;
    while !rest.is_empty() {
        let stated = match rest {
            [_, high, low, ..] => 3 + usize::from(two(*high, *low)),
            _ => rest.len(),
        };
        let (piece, after) = rest.split_at(stated.min(rest.len()));
        pieces.push(piece);
        rest = after;
    }
    pieces
}

#[cfg(test)]
mod tests {
    use super::*;

    fn all() -> [(Record, &'static [u8]); 20] {
        let step = Record::Step;
        [
            (Record::Start(Start::Chain { replicas: 8 }), &[32, 0, 1, 8]),
            (Record::Start(Start::Quorum { replicas: 4 }), &[33, 0, 1, 4]),
            (step(Step::Read { object: 1023 }), &[1, 0, 2, 3, 255]),
            (
                step(Step::Write {
                    object: 258,
                    value: 0x0102_0304,
                }),
                &[2, 0, 6, 1, 2, 1, 2, 3, 4],
            ),
            (
                step(Step::Deliver {
                    position: 513,
                    choice: 7,
                }),
                &[3, 0, 3, 2, 1, 7],
            ),
            (step(Step::Lose { position: 63 }), &[4, 0, 2, 0, 63]),
            (step(Step::Repeat { position: 256 }), &[5, 0, 2, 1, 0]),
            (step(Step::Advance { replica: 2 }), &[6, 0, 1, 2]),
            (step(Step::Replace { switch: 65535 }), &[7, 0, 2, 255, 255]),
            (step(Step::Tell { replica: 3 }), &[8, 0, 1, 3]),
            (step(Step::Remove { replica: 4 }), &[9, 0, 1, 4]),
            (give_up(2), &[10, 0, 4, 0, 0, 0, 2]),
            (give_up(65_535), &[10, 0, 4, 0, 0, 255, 255]),
            (give_up(0x0102_0304), &[10, 0, 4, 1, 2, 3, 4]),
            (give_up(4_294_967_295), &[10, 0, 4, 255, 255, 255, 255]),
            (context_of(&[1023, 5]), &[11, 0, 4, 3, 255, 0, 5]),
            (
                context_of(&[9, 8, 7, 6, 5, 4, 259, 65_535]),
                &[
                    11, 0, 16, 0, 9, 0, 8, 0, 7, 0, 6, 0, 5, 0, 4, 1, 3, 255, 255,
                ],
            ),
            (step(Step::Join), &[12, 0, 0]),
            (step(Step::Copy), &[13, 0, 0]),
            (step(Step::Execute), &[14, 0, 0]),
        ]
    }

    fn give_up(operation: u32) -> Record {
        Record::Step(Step::GiveUp { operation })
    }

    fn context_of(objects: &[u16]) -> Record {
        let objects = Objects::new(objects);
        Record::Step(Step::Context { objects })
    }

    #[test]
    fn reading_and_writing_are_inverse() {
        for (record, bytes) in all() {
            assert_eq!(read(bytes), Some((record, bytes.len())));
            let mut file = Vec::new();
            append(record, &mut file);
            assert_eq!(file, bytes);
        }
    }

    #[test]
    fn a_record_cut_anywhere_is_none() {
        for (_, bytes) in all() {
            for end in 0..bytes.len() {
                assert_eq!(read(&bytes[..end]), None);
            }
        }
    }

    #[test]
    fn only_the_table_length_is_taken() {
        for (_, bytes) in all() {
            for length in 0..600usize {
                let [high, low] = (length as u16).to_be_bytes();
                let mut file = vec![bytes[0], high, low];
                file.resize(3 + length, 1);
                let taken = match bytes[0] {
                    10 => [2, 4].contains(&length),
                    11 => [4, 6, 8, 10, 12, 14, 16].contains(&length),
                    _ => file.len() == bytes.len(),
                };
                assert_eq!(read(&file).is_some(), taken);
            }
        }
    }

    #[test]
    fn only_sixteen_tags_are_known() {
        for tag in 0..=255u8 {
            let known = (0..10u8).any(|length| {
                let mut file = vec![tag, 0, length];
                file.resize(12, 1);
                read(&file).is_some()
            });
            assert_eq!(known, (1..=14).contains(&tag) || [32, 33].contains(&tag));
        }
    }

    #[test]
    fn a_short_buffer_stays_as_it_was() {
        for (record, bytes) in all() {
            let mut buffer = [77; 22];
            let short = &mut buffer[..bytes.len() - 1];
            assert_eq!(write(record, short), Err(Refusal::BufferTooShort));
            assert_eq!(buffer, [77; 22]);
            assert_eq!(write(record, &mut buffer), Ok(bytes.len()));
            assert_eq!(&buffer[..bytes.len()], bytes);
            assert!(buffer[bytes.len()..].iter().all(|&b| b == 77));
        }
    }

    #[test]
    fn a_context_of_each_size_is_read_and_written() {
        for count in 2..=8u16 {
            let objects: Vec<u16> = (0..count).map(|k| 65_535 - 300 * k).collect();
            let mut file = Vec::new();
            append(context_of(&objects), &mut file);
            assert_eq!(file.len(), 3 + 2 * objects.len());
            assert_eq!(read(&file), Some((context_of(&objects), file.len())));
        }
        let twice = [11, 0, 4, 0, 5, 0, 5];
        assert_eq!(read(&twice), Some((context_of(&[5, 5]), 7)));
    }

    #[test]
    fn another_number_of_objects_is_refused_before_a_short_buffer() {
        for count in [0, 1, 9, 10, 100, 258] {
            let record = context_of(&vec![5; count]);
            let mut buffer = [77; 40];
            assert_eq!(write(record, &mut buffer), Err(Refusal::BadRecord));
            assert_eq!(write(record, &mut []), Err(Refusal::BadRecord));
            assert_eq!(buffer, [77; 40]);
        }
    }

    /// "One written form and two readable ones": each operation that has two bytes
    /// is read from both lengths, and written with length 4.
    #[test]
    fn every_give_up_of_two_bytes_has_two_readable_forms() {
        for operation in 0..=u16::MAX {
            let [a, b] = operation.to_be_bytes();
            let (short, long) = ([10, 0, 2, a, b], [10, 0, 4, 0, 0, a, b]);
            let record = give_up(u32::from(operation));
            assert_eq!(read(&short), Some((record, 5)));
            assert_eq!(read(&long), Some((record, 7)));
            let mut buffer = [77; 8];
            assert_eq!(write(record, &mut buffer), Ok(7));
            assert_eq!(buffer, [&long[..], &[77]].concat()[..]);
            assert_eq!(in_two_bytes(&long), short);
            assert_eq!(in_four_bytes(&short), long);
        }
    }

    /// A give-up needs its whole record, whichever length it was read from.
    #[test]
    fn a_give_up_does_not_fit_in_six_bytes() {
        let (record, size) = read(&[10, 0, 2, 0, 1]).unwrap();
        assert_eq!(size, 5);
        let mut buffer = [77; 6];
        assert_eq!(write(record, &mut buffer), Err(Refusal::BufferTooShort));
        assert_eq!(buffer, [77; 6]);
    }

    /// "A reader moves on by the record's own length."
    #[test]
    fn what_follows_a_give_up_is_found() {
        let file = [
            &[10, 0, 2, 0, 9][..],
            &[12, 0, 0],
            &[10, 0, 4, 0, 0, 0, 8],
            &[10, 0, 2, 0, 7],
            &[10, 0, 2, 0, 6],
            &[10, 0, 4, 1, 0, 0, 5],
            &[13, 0, 0],
        ]
        .concat();
        let (join, copy) = (Record::Step(Step::Join), Record::Step(Step::Copy));
        let read: Result<Vec<Record>, Refusal> = Reader::new(&file).collect();
        let numbers = [9, 8, 7, 6, 0x0100_0005].map(give_up);
        let [a, b, c, d, e] = numbers;
        assert_eq!(read, Ok(vec![a, join, b, c, d, e, copy]));
    }

    /// Two bytes where four are stated, and four where two are.
    #[test]
    fn the_stated_length_of_a_give_up_holds() {
        assert_eq!(read(&[10, 0, 4, 0, 1]), None);
        assert_eq!(
            read(&[10, 0, 4, 0, 1, 12, 0, 0]),
            Some((give_up(0x1_0c00), 7))
        );
        assert_eq!(read(&[10, 0, 2, 0, 0, 0, 1]), Some((give_up(0), 5)));
        assert_eq!(read(&[10, 0, 3, 0, 0, 1]), None);
        assert_eq!(read(&[10, 2, 0, 0, 1]), None);
    }

    /// Only sound give-ups change their length, and only those that fit two bytes
    /// become short.
    #[test]
    fn the_length_of_a_file_s_give_ups_is_changed() {
        let long = [
            &[32, 0, 1, 2][..],
            &[10, 0, 4, 0, 0, 1, 2],
            &[10, 0, 4, 0, 1, 0, 0],
            &[10, 0, 3, 0, 0, 1],
            &[4, 0, 4, 0, 0, 0, 1],
            &[10, 0, 4, 0, 0, 1],
        ];
        let mut short = long;
        short[1] = &[10, 0, 2, 1, 2];
        assert_eq!(in_two_bytes(&long.concat()), short.concat());
        assert_eq!(in_four_bytes(&short.concat()), long.concat());
    }

    #[test]
    fn pieces_follow_the_stated_lengths() {
        let file = [32, 0, 1, 2, 99, 0, 0, 1, 0, 9, 5];
        let expected: [&[u8]; 3] = [&[32, 0, 1, 2], &[99, 0, 0], &[1, 0, 9, 5]];
        assert_eq!(pieces(&file), expected);
    }
}
