//! The proved session store model, for callers in Rust: a safe wrapper of the
//! functions that `bindings/c/woldladle.h` describes.

mod raw;

use raw::{Packet, Session, CHAIN, OPENS, PLACES, POSITIONS, STORE, SWITCH};

/// The fewest bytes that a record has (tags 12, 13 and 14, which have no content),
/// the most that a record, a line and an input have, and room for the output of any
/// input, which has 21,845 records at the most.
pub const SHORTEST_RECORD: usize = 3;
pub const LONGEST_RECORD: usize = 19;
pub const LONGEST_LINE: usize = 147;
pub const LONGEST_INPUT: usize = 65_536;
pub const OUTPUT_ROOM: usize = 3_276_800;
/// The most objects that one read names.
pub const LONGEST_CONTEXT: usize = 8;
/// The most replicas that are live at a time.
pub const REPLICAS: usize = 8;

/// What a step answers; a refusal is the number that document 01 or 02 gives it.
#[derive(Clone, Copy, Debug, PartialEq, Eq)]
pub enum Answer {
    Done,
    Finished {
        operation: u32,
        values: Values,
        freshness: Freshness,
    },
    Refused(u8),
}

/// The values of a finished operation, as a slice: one, or for a read of a whole
/// context one for each object, in the order given.
#[derive(Clone, Copy, PartialEq, Eq)]
pub struct Values {
    count: u32,
    places: [u32; LONGEST_CONTEXT],
}

impl Values {
    /// These values, of which there are at most eight; it panics at more.
    pub fn of(values: &[u32]) -> Values {
        let mut places = [0; LONGEST_CONTEXT];
        places[..values.len()].copy_from_slice(values);
        Values {
            count: values.len() as u32,
            places,
        }
    }
}

impl std::ops::Deref for Values {
    type Target = [u32];

    #[inline]
    fn deref(&self) -> &[u32] {
        &self.places[..self.count as usize]
    }
}

impl std::fmt::Debug for Values {
    fn fmt(&self, f: &mut std::fmt::Formatter) -> std::fmt::Result {
        (**self).fmt(f)
    }
}

/// What a finished read says, if its object had a counting mark when the switch
/// sent it to the tail, or to the leader of a quorum store: `Old` if the stamp of
/// its value is below the mark's, `New` if not. `None` for every other read, that of a whole context too, and for a write.
#[derive(Clone, Copy, Debug, PartialEq, Eq)]
pub enum Freshness {
    None,
    Old,
    New,
}

impl Freshness {
    /// From the number in a session.
    #[inline]
    fn from_number(number: u32) -> Freshness {
        match number {
            1 => Freshness::Old,
            2 => Freshness::New,
            _ => Freshness::None,
        }
    }
}

/// The replicas that there are: the numbers of the live ones, the head's first, and
/// the one that joins, which is not live. Of a quorum store these are all its
/// replicas, the leader's number first, and none joins.
#[derive(Clone, Debug, PartialEq, Eq)]
pub struct Chain {
    pub live: Vec<u8>,
    pub newcomer: Option<Newcomer>,
}

/// A replica that joins: its number, and how many copies it has, 0 to 15. It holds
/// the first 64 objects for each; the sixteenth copy makes it the tail.
#[derive(Clone, Copy, Debug, PartialEq, Eq)]
pub struct Newcomer {
    pub number: u8,
    pub copies: u8,
}

/// How far a replica of a quorum store is: the entries that it has logged, those of
/// them that it has executed, and those that the leader knows it to have
/// acknowledged (0 for the leader itself, which needs none).
#[derive(Clone, Copy, Debug, PartialEq, Eq)]
pub struct Positions {
    pub logged: u32,
    pub executed: u32,
    pub acknowledged: u32,
}

/// A store of replicas behind a switch, a chain or a leader with followers, with the
/// memory that the library works in.
#[derive(Clone)]
pub struct Model(Box<Lent>);

/// All that the library is lent. The switch begins with a cache line: where it lay
/// across the end of a page, the average step took a tenth longer.
#[derive(Clone)]
#[repr(C, align(64))]
struct Lent {
    switch: [u32; SWITCH],
    opens: [u32; OPENS],
    session: Session,
    packets: [Packet; PLACES],
    store: [u32; STORE],
}

impl Model {
    /// An empty chain of `n` replicas, 1 to 8, numbered from 1, or refusal 2.
    pub fn start(n: u8) -> Result<Model, u8> {
        Model::start_record(&start_of(CHAIN_START, n))
    }

    /// An empty quorum store of `n` replicas, 3, 5 or 7, or refusal 2: replica 1 is
    /// the leader, the others are its followers.
    pub fn start_quorum(n: u8) -> Result<Model, u8> {
        Model::start_record(&start_of(QUORUM_START, n))
    }

    /// An empty store as a start record has it, or refusal 1 where the bytes are not
    /// one whole start record, or 2 for its numbers.
    pub fn start_record(record: &[u8]) -> Result<Model, u8> {
        // Every field is made of numbers, which zeros are.
        let lent = unsafe { Box::<Lent>::new_zeroed().assume_init() };
        let mut model = Model(lent);
        model.restart_record(record).map(|()| model)
    }

    /// An empty chain of `n` replicas in place of this store, or refusal 2, which
    /// leaves this one to go on.
    pub fn restart(&mut self, n: u8) -> Result<(), u8> {
        self.restart_record(&start_of(CHAIN_START, n))
    }

    /// The same, for a quorum store.
    pub fn restart_quorum(&mut self, n: u8) -> Result<(), u8> {
        self.restart_record(&start_of(QUORUM_START, n))
    }

    /// The same by a start record. Refusal 1 or 2, as of `start_record`, leaves this
    /// one to go on.
    pub fn restart_record(&mut self, record: &[u8]) -> Result<(), u8> {
        // The pointers are to the fields, which have the sizes that the header names;
        // `record` is lent for the call only.
        unsafe {
            raw::woldladle_start(
                &mut self.0.session,
                self.0.switch.as_mut_ptr(),
                self.0.store.as_mut_ptr(),
                self.0.opens.as_mut_ptr(),
                record.as_ptr(),
                record.len(),
            )
        };
        match self.0.session.refusal {
            0 => Ok(()),
            refusal => Err(refusal),
        }
    }

    /// The step of one record. Refusals of joins: tag 12 by 17 where eight replicas
    /// are live or number 255 has been given, then by 18 where a join is under way;
    /// tag 13 by 19 where none is. Of a quorum store: tags 9, 12 and 13 by 23 there, and
    /// tag 14 by 23 in a chain, before any other but 1; tag 14 by 24 where no write can be
    /// executed or a link is full, before 6.
    #[inline]
    pub fn step(&mut self, record: &[u8]) -> Answer {
        self.step_within(PLACES, record)
    }

    /// The same, where only so many of the places are lent.
    #[inline]
    fn step_within(&mut self, places: usize, record: &[u8]) -> Answer {
        assert!(places <= PLACES);
        // As in `restart_record`.
        unsafe {
            raw::woldladle_step(
                &mut self.0.session,
                self.0.switch.as_mut_ptr(),
                self.0.store.as_mut_ptr(),
                self.0.opens.as_mut_ptr(),
                self.0.packets.as_mut_ptr(),
                places,
                record.as_ptr(),
                record.len(),
            )
        };
        match (self.0.session.refusal, self.0.session.operation) {
            (0, 0) => Answer::Done,
            (0, operation) => Answer::Finished {
                operation,
                values: Values {
                    count: self.0.session.count,
                    places: self.0.session.values,
                },
                freshness: Freshness::from_number(self.0.session.freshness),
            },
            (refusal, _) => Answer::Refused(refusal),
        }
    }

    /// How many packets wait.
    #[inline]
    pub fn waiting(&self) -> usize {
        self.0.session.waiting
    }

    /// How many marks count.
    #[inline]
    pub fn marks(&self) -> usize {
        self.0.session.marks as usize
    }

    /// The line of the last step, as record `number`: how many bytes of `out`
    /// it takes, 0 where that is too short.
    #[inline]
    pub fn line(&self, number: u64, out: &mut [u8]) -> usize {
        let s = &self.0.session;
        let (to, room) = (out.as_mut_ptr(), out.len());
        unsafe {
            raw::woldladle_line(
                number,
                s.refusal,
                s.operation,
                s.count,
                s.values.as_ptr(),
                s.freshness,
                s.waiting,
                s.marks,
                to,
                room,
            )
        }
    }

    /// The value of an object at a replica, by its number, 1 to 255. Only the live
    /// replicas and one that joins hold any: 0 where there is no such replica or
    /// object, and from the step on that removes a replica or ends its join. One that
    /// joins has an object from the copy of it on, and 0 before. A replica of a quorum
    /// store holds what it has executed.
    #[inline]
    pub fn value(&self, replica: u8, object: u32) -> u32 {
        unsafe { raw::woldladle_value(self.0.store.as_ptr(), replica, object) }
    }

    /// Its stamp: the switch number times 4,294,967,296, and the counter; 0 where the
    /// value is 0 for want of a replica, an object or a copy.
    #[inline]
    pub fn stamp(&self, replica: u8, object: u32) -> u64 {
        unsafe { raw::woldladle_stamp(self.0.store.as_ptr(), replica, object) }
    }

    /// The live replicas in chain order, and the one that joins.
    pub fn chain(&self) -> Chain {
        let mut told = [0; CHAIN];
        let count = unsafe { raw::woldladle_chain(self.0.store.as_ptr(), told.as_mut_ptr()) };
        let (live, newcomer) = told.split_at(REPLICAS);
        Chain {
            live: live[..usize::from(count)].to_vec(),
            newcomer: (newcomer[0] != 0).then_some(Newcomer {
                number: newcomer[0],
                copies: newcomer[1],
            }),
        }
    }

    /// How far a replica of a quorum store is, by its number; none where this is a
    /// chain, or has no such replica.
    pub fn positions(&self, replica: u8) -> Option<Positions> {
        let mut told = [0; POSITIONS];
        let (from, to) = (self.0.store.as_ptr(), told.as_mut_ptr());
        let found = unsafe { raw::woldladle_positions(from, replica, to) };
        let [logged, executed, acknowledged] = told;
        (found != 0).then_some(Positions {
            logged,
            executed,
            acknowledged,
        })
    }

    /// All that the next step begins with, as bytes: for tests that a refusal
    /// changes nothing.
    pub fn bytes(&self) -> Vec<u8> {
        let numbers = self
            .0
            .switch
            .iter()
            .chain(&self.0.store)
            .chain(&self.0.opens);
        let packets = self.0.packets.iter().flat_map(|p| p.own);
        let mut bytes: Vec<u8> = numbers
            .chain([&self.0.session.marks])
            .flat_map(|n| n.to_le_bytes())
            .collect();
        bytes.extend(packets.flat_map(|n| n.to_le_bytes()));
        bytes.extend(self.0.session.waiting.to_le_bytes());
        bytes
    }
}

/// The tags of the starts of a chain and of a quorum store.
const CHAIN_START: u8 = 32;
const QUORUM_START: u8 = 33;

/// The record of a start with `n` replicas.
fn start_of(tag: u8, n: u8) -> [u8; 4] {
    [tag, 0, 1, n]
}

/// Writes the record of a tag with its numbers, 0 for one that it does not
/// have (tags 12, 13 and 14 have none, and tag 10 takes any operation and is
/// written with length 4), at the start of `out`: how many bytes it has, or refusal
/// 1 where no such record exists (tag 11 has `write_context`), or 15. A refusal
/// leaves `out` as it was.
#[inline]
pub fn write_record(tag: u8, first: u32, second: u32, out: &mut [u8]) -> Result<usize, u8> {
    let (to, room) = (out.as_mut_ptr(), out.len());
    match unsafe { raw::woldladle_write_record(tag, first, second, to, room) } {
        0 => Ok(record_length(tag)),
        refusal => Err(refusal),
    }
}

/// Writes the record of a read of a whole context (tag 11) at the start of `out`:
/// how many bytes it has, or refusal 1 where there are not 2 to 8 objects, or 15. A
/// refusal leaves `out` as it was. Any objects are written: the step refuses those
/// that it does not allow.
#[inline]
pub fn write_context(objects: &[u16], out: &mut [u8]) -> Result<usize, u8> {
    let (to, room) = (out.as_mut_ptr(), out.len());
    let (from, count) = (objects.as_ptr(), objects.len());
    match unsafe { raw::woldladle_write_context(from, count, to, room) } {
        0 => Ok(3 + 2 * count),
        refusal => Err(refusal),
    }
}

/// How many bytes the record of a tag has, from 3 (tags 12, 13 and 14) to 9; 0 for an
/// unknown tag and for tag 11, whose record has no fixed length.
#[inline]
pub fn record_length(tag: u8) -> usize {
    usize::from(unsafe { raw::woldladle_record_length(tag) })
}

/// Stack enough for `run`, and for `shorten`.
pub const RUN_STACK: usize = 131_072;
pub const SHORTEN_STACK: usize = 655_360;

/// Everything that the run program prints for an input: how many bytes it has,
/// whatever the room. `out` holds its whole lines, from the front up to the first
/// that does not fit; every byte after them is as it was.
pub fn run(input: &[u8], out: &mut [u8]) -> usize {
    unsafe { raw::woldladle_run(input.as_ptr(), input.len(), out.as_mut_ptr(), out.len()) }
}

/// The most steps of a drawn run.
pub const MOST_STEPS: u64 = 7000;

/// The records of a chain's start with `n` replicas and of so many random steps, the same
/// for the same seed on every machine, at the start of `out`: how many bytes they
/// have, or refusal 2 where `n` is not 1 to 8, then 20 above `MOST_STEPS`, then 15
/// where `out` is too short. A refusal leaves `out` as it was, and what is written
/// every byte beyond. `LONGEST_INPUT` bytes are room for any.
pub fn draw(seed: u32, n: u64, steps: u64, out: &mut [u8]) -> Result<usize, u8> {
    let (to, room) = (out.as_mut_ptr(), out.len());
    let answer = unsafe { raw::woldladle_draw(seed, n, steps, to, room) };
    usize::try_from(answer).map_err(|_| answer.unsigned_abs() as u8)
}

/// The most records of a run that is shortened, the start counted.
pub const MOST_RECORDS: usize = 512;

/// A shorter run whose last record is refused with the same number: the start, the
/// last record and some between, unchanged and in order, such that dropping any one
/// more of those between changes that, at the start of `out`. How many bytes they
/// have, or refusal 14, then 1 or 2, as the run of the input meets them, then 22
/// above `MOST_RECORDS`, then 21 where the last record is not refused by its step,
/// then 15 where `out` is too short. A refusal leaves `out` as it was, and what is
/// written every byte beyond.
pub fn shorten(input: &[u8], out: &mut [u8]) -> Result<usize, u8> {
    let (to, room) = (out.as_mut_ptr(), out.len());
    let answer = unsafe { raw::woldladle_shorten(input.as_ptr(), input.len(), to, room) };
    usize::try_from(answer).map_err(|_| answer.unsigned_abs() as u8)
}

#[cfg(test)]
mod tests {
    use super::*;

    const BEGIN_A_READ: [u8; 5] = [1, 0, 2, 0, 5];
    const DELIVER: [u8; 6] = [3, 0, 3, 0, 0, 0];
    const JOIN: [u8; 3] = [12, 0, 0];
    const COPY: [u8; 3] = [13, 0, 0];
    const EXECUTE: [u8; 3] = [14, 0, 0];

    #[test]
    fn fewer_than_64_places_are_refused_by_15() {
        let mut model = Model::start(2).expect("two");
        assert_eq!(model.step(&BEGIN_A_READ), Answer::Done);
        let before = model.bytes();
        for places in 0..PLACES {
            let answer = model.step_within(places, &BEGIN_A_READ);
            assert_eq!(answer, Answer::Refused(15), "{places}");
            assert!(model.bytes() == before, "{places}");
        }
        assert_eq!(model.step_within(PLACES, &BEGIN_A_READ), Answer::Done);
        assert!(model.bytes() != before);
    }

    #[test]
    fn refusal_1_comes_before_15_and_15_before_the_rest() {
        let mut model = Model::start(2).expect("two");
        let before = model.bytes();
        let no_such_object = [1, 0, 2, 255, 255];
        let one_object = [11, 0, 2, 4, 0];
        let named_twice = [11, 0, 4, 0, 5, 0, 5];
        for (record, places, refusal) in [
            (&[][..], 63, 1),
            (&[32, 0, 1, 2], 63, 1),
            (&[33, 0, 1, 3], 63, 1),
            (&BEGIN_A_READ[..4], 0, 1),
            (&[1, 0, 2, 0, 5, 0], 0, 1),
            (&no_such_object, 63, 15),
            (&no_such_object, 64, 3),
            (&one_object, 63, 1),
            (&named_twice, 63, 15),
            (&named_twice, 64, 16),
            (&[13, 0, 1, 0], 63, 1),
            (&COPY, 63, 15),
            (&COPY, 64, 19),
            (&[14, 0, 1, 0], 63, 1),
            (&EXECUTE, 63, 15),
            (&EXECUTE, 64, 23),
        ] {
            assert_eq!(model.step_within(places, record), Answer::Refused(refusal));
            assert!(model.bytes() == before, "{record:?}");
        }
    }

    #[test]
    fn refusal_15_comes_before_23_and_24() {
        let mut model = Model::start_quorum(3).expect("three");
        let before = model.bytes();
        for (record, refusal) in [
            (&[9, 0, 1, 9][..], 23),
            (&JOIN, 23),
            (&COPY, 23),
            (&EXECUTE, 24),
        ] {
            for (places, refusal) in [(63, 15), (64, refusal)] {
                assert_eq!(model.step_within(places, record), Answer::Refused(refusal));
                assert!(model.bytes() == before, "{record:?}");
            }
        }
    }

    #[test]
    fn structs_have_the_sizes_of_the_header() {
        assert_eq!(size_of::<Session>(), 64);
        assert_eq!(size_of::<Packet>(), 24);
    }

    /// Takes a read of these objects to its end, with a lone replica.
    fn read(model: &mut Model, objects: &[u16]) -> Answer {
        let mut record = [0; LONGEST_RECORD];
        let size = write_context(objects, &mut record).expect("a record");
        assert_eq!(model.step(&record[..size]), Answer::Done);
        assert_eq!(model.step(&DELIVER), Answer::Done);
        assert_eq!(model.step(&DELIVER), Answer::Done);
        model.step(&DELIVER)
    }

    /// How many values the session has, and its eight places for them.
    fn noted(model: &Model) -> (u32, [u32; 8]) {
        (model.0.session.count, model.0.session.values)
    }

    #[test]
    fn a_session_has_its_values_and_0_behind_them() {
        let mut model = Model::start(1).expect("one");
        for object in 1..=8 {
            let write = [2, 0, 6, 0, object, 0, 0, 0, 10 * object];
            assert_eq!(model.step(&write), Answer::Done);
            assert_eq!(model.step(&DELIVER), Answer::Done);
            assert_eq!(model.step(&DELIVER), Answer::Done);
            assert_ne!(model.step(&DELIVER), Answer::Done);
            let value = 10 * u32::from(object);
            assert_eq!(noted(&model), (1, [value, 0, 0, 0, 0, 0, 0, 0]));
            assert_eq!(model.step(&DELIVER), Answer::Done);
            assert_eq!(noted(&model), (0, [0; 8]));
        }
        for (objects, values) in [
            (&[8, 1][..], [80, 10, 0, 0, 0, 0, 0, 0]),
            (&[8, 7, 6, 5, 4, 3, 2, 1], [80, 70, 60, 50, 40, 30, 20, 10]),
            (&[3, 100, 4], [30, 0, 40, 0, 0, 0, 0, 0]),
            (&[7, 6, 5, 4, 3, 2, 1], [70, 60, 50, 40, 30, 20, 10, 0]),
        ] {
            let answer = read(&mut model, objects);
            assert_eq!(noted(&model), (objects.len() as u32, values));
            let Answer::Finished { values: found, .. } = answer else {
                panic!("{answer:?}");
            };
            assert_eq!(*found, values[..objects.len()]);
            assert_eq!(model.step(&DELIVER), Answer::Refused(7));
            assert_eq!(noted(&model), (0, [0; 8]));
        }
    }

    /// In a state with a wrong number stored, an accepted step hands the number on,
    /// until one sets it; a refused step leaves the session its own.
    #[test]
    fn the_stored_number_of_marks_is_handed_on() {
        let mut model = Model::start(1).expect("one");
        let mut marks_after = |stored: Option<u32>, record: &[u8]| {
            if let Some(number) = stored {
                model.0.switch[SWITCH - 1] = number;
            }
            let answer = model.step(record);
            (model.marks(), matches!(answer, Answer::Refused(_)))
        };
        const READ: [u8; 5] = [1, 0, 2, 0, 5];
        const REPLACE: [u8; 5] = [7, 0, 2, 0, 2];
        assert_eq!(marks_after(Some(7), &READ), (7, false));
        for _ in 0..3 {
            assert_eq!(marks_after(None, &DELIVER), (7, false));
        }
        assert_eq!(marks_after(None, &DELIVER), (7, true));
        assert_eq!(marks_after(None, &WRITE), (7, false));
        assert_eq!(marks_after(None, &DELIVER), (8, false)); // the object is marked
        assert_eq!(marks_after(None, &DELIVER), (8, false));
        assert_eq!(marks_after(None, &DELIVER), (8, false));
        assert_eq!(marks_after(None, &DELIVER), (0, false)); // the completion
        assert_eq!(marks_after(Some(7), &REPLACE), (0, false));
        assert_eq!(marks_after(Some(7), &REPLACE), (0, true));
    }

    #[test]
    fn a_refusal_leaves_the_session_its_marks() {
        let mut model = Model::start(1).expect("one");
        model.0.switch[SWITCH - 1] = 7;
        for marks in [0, 5, u32::MAX] {
            model.0.session.marks = marks;
            let before = model.bytes();
            for (places, record, refusal) in [
                (64, &[][..], 1),
                (63, &BEGIN_A_READ[..], 15),
                (64, &[1, 0, 2, 4, 0], 3),
                (64, &DELIVER, 7),
                (64, &[7, 0, 2, 0, 1], 11),
                (64, &COPY, 19),
            ] {
                let answer = model.step_within(places, record);
                assert_eq!(answer, Answer::Refused(refusal), "{record:?}");
                assert!(model.bytes() == before, "{record:?}");
                assert_eq!(model.0.session.marks, marks);
            }
            for (record, refusal) in [(&DELIVER[..], 1), (&[32, 0, 1, 9], 2)] {
                assert_eq!(model.restart_record(record), Err(refusal));
                assert!(model.bytes() == before, "{record:?}");
            }
        }
        assert_eq!(model.step(&BEGIN_A_READ), Answer::Done);
        assert_eq!(model.marks(), 7);
    }

    /// In no run is a join begun and not ended with eight live; in a state with both
    /// none is under way.
    #[test]
    fn no_join_is_under_way_with_eight_live() {
        let mut model = Model::start(8).expect("eight");
        assert_eq!(model.step(&COPY), Answer::Refused(19));
        for made in 1..=17 {
            model.0.store[COPIES] = made;
            let before = model.bytes();
            for (record, refusal) in [(COPY, 19), (JOIN, 17)] {
                assert_eq!(model.step(&record), Answer::Refused(refusal), "{made}");
                assert!(model.bytes() == before, "{made}");
            }
            assert_eq!(model.chain().live, [1, 2, 3, 4, 5, 6, 7, 8]);
            assert_eq!(model.chain().newcomer, None);
        }
    }

    #[test]
    fn the_shortest_record_has_three_bytes() {
        let lengths = (0..=255).map(record_length).filter(|length| *length > 0);
        assert_eq!(lengths.min(), Some(SHORTEST_RECORD));
    }

    /// Where numbers lie in what is lent, for tests only: the switch's counter, the
    /// last operation given, the stamps of replica 1, two numbers for each object, and
    /// one more than the copies that a newcomer has.
    const COUNTER: usize = 1;
    const LAST_GIVEN: usize = 65;
    const STAMPS_OF_1: usize = 8873 + 2 * 1024;
    const COPIES: usize = 25_258;

    /// A lone replica with all operations but one given, and all counters used but
    /// one.
    fn near_the_end() -> Model {
        let mut model = Model::start(1).expect("one");
        model.0.opens[LAST_GIVEN] = u32::MAX - 1;
        model.0.switch[COUNTER] = u32::MAX - 1;
        model
    }

    const WRITE: [u8; 9] = [2, 0, 6, 0, 5, 0, 0, 0, 9];

    #[test]
    fn the_last_operation_and_the_last_counter() {
        let mut model = near_the_end();
        for record in [&WRITE[..], &DELIVER, &DELIVER] {
            assert_eq!(model.step(record), Answer::Done);
        }
        let mut out = [0; LONGEST_LINE];
        assert!(matches!(model.step(&DELIVER), Answer::Finished { .. }));
        let size = model.line(5, &mut out);
        assert_eq!(out[..size], *b"5 ok 1 1 4294967295 9 -\n");
        assert_eq!(model.stamp(1, 5), (1 << 32) + u64::from(u32::MAX));
        assert_eq!(model.step(&DELIVER), Answer::Done);
        for begin in [&WRITE[..], &BEGIN_A_READ, &[11, 0, 4, 0, 5, 0, 6]] {
            let before = model.bytes();
            assert_eq!(model.step(begin), Answer::Refused(4));
            assert!(model.bytes() == before);
        }
    }

    /// With 64 operations open, 64 packets waiting and no operation number left, 4
    /// comes after 1, 3 and 16 and before 5 and 6.
    #[test]
    fn refusal_4_has_its_place_in_the_order() {
        let mut model = Model::start(2).expect("two");
        (0..64).for_each(|_| assert_eq!(model.step(&BEGIN_A_READ), Answer::Done));
        for (last, refusal) in [(u32::MAX - 1, 5), (u32::MAX, 4)] {
            model.0.opens[LAST_GIVEN] = last;
            for (record, refusal) in [
                (&[11, 0, 2, 4, 0][..], 1),    // one object, and that is 1,024
                (&[11, 0, 4, 4, 0, 4, 0], 3),  // named twice
                (&[11, 0, 4, 0, 5, 0, 5], 16), // .. and an object that there is
                (&[11, 0, 4, 0, 5, 0, 6], refusal),
                (&[1, 0, 2, 4, 0], 3),
                (&BEGIN_A_READ, refusal),
                (&WRITE, refusal),
            ] {
                assert_eq!(model.step(record), Answer::Refused(refusal), "{record:?}");
            }
        }
    }

    #[test]
    fn the_last_operation_is_given_up_with_length_4() {
        let mut model = near_the_end();
        assert_eq!(model.step(&BEGIN_A_READ), Answer::Done);
        assert_eq!(model.step(&BEGIN_A_READ), Answer::Refused(4));
        let give_up_65535 = [10, 0, 2, 255, 255];
        assert_eq!(model.step(&give_up_65535), Answer::Refused(13));
        let mut record = [0; LONGEST_RECORD];
        let size = write_record(10, u32::MAX, 0, &mut record).expect("a record");
        assert_eq!(record[..size], [10, 0, 4, 255, 255, 255, 255]);
        assert_eq!(model.step(&record[..size]), Answer::Done);
        assert_eq!(model.step(&record[..size]), Answer::Refused(13));
    }

    /// With the counter at its end, which no run reaches, a write is dropped, and
    /// counter and marks stay.
    #[test]
    fn no_counter_is_left() {
        let mut model = near_the_end();
        model.0.switch[COUNTER] = u32::MAX;
        assert_eq!(model.step(&WRITE), Answer::Done);
        assert_eq!(model.step(&DELIVER), Answer::Done);
        assert_eq!((model.waiting(), model.marks()), (0, 0));
        assert_eq!(model.0.switch[COUNTER], u32::MAX);
    }

    /// Whatever the store holds, all that stands above the counter is the switch
    /// number.
    #[test]
    fn a_stamp_is_not_cut() {
        let mut model = Model::start(1).expect("one");
        model.0.store[STAMPS_OF_1 + 2 * 5] = u32::MAX;
        model.0.store[STAMPS_OF_1 + 2 * 5 + 1] = 7;
        assert_eq!(model.stamp(1, 5), (u64::from(u32::MAX) << 32) + 7);
    }

    /// The line of record 5, with 2 packets and 1 mark, from these fields.
    fn line_of(operation: u32, count: u32, freshness: u32) -> String {
        let mut model = Model::start(1).expect("one");
        model.0.session = Session {
            refusal: 0,
            operation,
            count,
            values: [7, 0, 50, 4, 3, 2, 1, u32::MAX],
            freshness,
            marks: 1,
            waiting: 2,
        };
        let mut out = [0; LONGEST_LINE];
        let size = model.line(5, &mut out);
        String::from_utf8_lossy(&out[..size]).into_owned()
    }

    #[test]
    fn every_count_has_a_line() {
        for (operation, count, freshness, end) in [
            (0, 0, 0, "- - -"),
            (0, 3, 1, "- - -"),
            (9, 0, 1, "9 7 old"),
            (9, 1, 2, "9 7 new"),
            (9, 1, 3, "9 7 -"),
            (9, 2, 0, "9 7,0 -"),
            (9, 3, 1, "9 7,0,50 -"),
            (9, 7, 2, "9 7,0,50,4,3,2,1 -"),
            (9, 8, 0, "9 7,0,50,4,3,2,1,4294967295 -"),
            (9, 9, 0, "9 7,0,50,4,3,2,1,4294967295 -"),
            (9, u32::MAX, 0, "9 7,0,50,4,3,2,1,4294967295 -"),
        ] {
            let line = line_of(operation, count, freshness);
            assert_eq!(line, format!("5 ok 2 1 {end}\n"));
        }
    }

    #[test]
    fn a_record_s_number_has_up_to_20_digits() {
        let model = Model::start(1).expect("one");
        let powers = (0..20).map(|k| 10u64.pow(k));
        let near = powers.flat_map(|p| [p - 1, p, p + 1]);
        let widths = [u64::from(u32::MAX), u64::from(u32::MAX) + 1, u64::MAX];
        for number in near.chain(widths) {
            let mut out = [0; LONGEST_LINE];
            let size = model.line(number, &mut out);
            let line = format!("{number} ok 0 0 - - -\n");
            assert_eq!(out[..size], *line.as_bytes());
        }
    }

    #[test]
    fn the_longest_line_has_room() {
        let mut model = Model::start(1).expect("one");
        model.0.session = Session {
            refusal: 0,
            operation: u32::MAX,
            count: 8,
            values: [u32::MAX; 8],
            freshness: 0,
            marks: u32::MAX,
            waiting: usize::MAX,
        };
        let eight = ["4294967295"; 8].join(",");
        let line = format!("18446744073709551615 ok 64 4294967295 4294967295 {eight} -\n");
        assert!(line.len() <= LONGEST_LINE);
        let mut out = vec![0xaa; line.len() + 1];
        assert_eq!(model.line(u64::MAX, &mut out[..line.len() - 1]), 0);
        assert!(out.iter().all(|b| *b == 0xaa));
        assert_eq!(model.line(u64::MAX, &mut out), line.len());
        assert_eq!(out, [line.as_bytes(), &[0xaa]].concat());
    }
}
