//! Random record files of many kinds, from a seed. Most kinds look at the
//! model's state to choose steps that are mostly accepted.

mod author;
mod mood;

use crate::model::{Start, Step};
use crate::records::{append, in_four_bytes, pieces, Record, LONGEST};
use crate::run::INPUT_LONGEST;
use author::Author;
use mood::mood;

/// A small seeded source of numbers (splitmix).
pub struct Random(u64);

impl Random {
    /// The source for a seed.
    pub fn new(seed: u64) -> Self {
        Random(seed)
    }

    /// The next 64 bits.
    pub fn draw(&mut self) -> u64 {
        self.0 = self.0.wrapping_add(0x9e37_79b9_7f4a_7c15);
        let mut z = self.0;
        z = (z ^ (z >> 30)).wrapping_mul(0xbf58_476d_1ce4_e5b9);
        z = (z ^ (z >> 27)).wrapping_mul(0x94d0_49bb_1331_11eb);
        z ^ (z >> 31)
    }

    /// A number below `end`, which is above 0.
    pub fn below(&mut self, end: usize) -> usize {
        (self.draw() >> 32) as usize % end
    }

    /// A number from `first` to `last`.
    pub fn within(&mut self, first: usize, last: usize) -> usize {
        first + self.below(last - first + 1)
    }

    /// True that many times in a thousand.
    pub fn chance(&mut self, thousandths: usize) -> bool {
        self.below(1000) < thousandths
    }

    /// One of some items, which are not none.
    pub fn one_of<T: Copy>(&mut self, items: &[T]) -> T {
        items[self.below(items.len())]
    }
}

/// The kinds of files, each with what it is about. A kind's place goes into its
/// files' bytes, so a new one stands behind the others.
pub const KINDS: [(&str, &str); 31] = [
    ("accepted", "mostly accepted steps of every tag"),
    ("dense", "reads and writes of few objects"),
    ("full-waiting", "nearly full waiting list"),
    ("full-links", "nearly full links"),
    ("full-open", "nearly 64 open operations"),
    ("colliding", "objects that share slots in all three stages"),
    (
        "replacements",
        "new switches, late completions, late permits",
    ),
    (
        "removals",
        "heads, middles, tails removed, writes in the links",
    ),
    ("repeats-losses", "many repeated and lost packets"),
    ("direct-reads", "direct reads with writes under way"),
    ("pending-writes", "reads that go round pending writes"),
    ("lone", "a single replica"),
    ("small", "few operations on one or two objects"),
    ("limits", "fields at their limits"),
    ("random-steps", "well-formed records with random fields"),
    ("damaged", "a run with a fault in its bytes"),
    ("noise", "random bytes"),
    (
        "contexts",
        "reads of several objects among reads and writes of few",
    ),
    (
        "context-faults",
        "reads of several objects that are refused or of a wrong length",
    ),
    (
        "small-contexts",
        "few operations, reads of two or three objects",
    ),
    (
        "joins",
        "replicas put back under traffic, joins ended by removals",
    ),
    (
        "join-faults",
        "joins and copies that are refused or of a wrong length",
    ),
    ("small-joins", "few operations, whole joins among them"),
    (
        "give-ups",
        "give-ups of both lengths, of any operation, or of a wrong length",
    ),
    ("quorum", "a leader with followers, some of them far behind"),
    ("quorum-full", "a leader's log and links nearly full"),
    (
        "quorum-acks",
        "acknowledgements held back, lost and repeated",
    ),
    (
        "quorum-replacements",
        "new switches over a leader with followers, late completions",
    ),
    (
        "quorum-faults",
        "steps that a quorum store refuses, wrong sizes and damaged records",
    ),
    ("chain-executes", "a leader's step in a chain"),
    ("small-quorum", "few operations on a leader with followers"),
];

/// The kinds of small runs, for which an order is looked for.
pub const SMALL: [&str; 4] = ["small", "small-contexts", "small-joins", "small-quorum"];

/// So many of the kinds, the first ones, have a mood, and are damaged for kind
/// `damaged`.
const MOODS: usize = 14;

/// A file of a kind, from a seed, of at most this length (exactly this length
/// except for `damaged`, `context-faults`, `join-faults`, `give-ups` and
/// `quorum-faults`); none if there is no such kind.
pub fn generate(kind: &str, seed: u64, length: usize) -> Option<Vec<u8>> {
    let place = KINDS.iter().position(|(name, _)| *name == kind)?;
    let mut random = Random::new(seed ^ (place as u64) << 56);
    random.draw();
    Some(match kind {
        "noise" => noise(&mut random, length),
        "damaged" => damaged(&mut random, length),
        "random-steps" => random_steps(&mut random, length),
        "context-faults" => context_faults(&mut random, length),
        "join-faults" => join_faults(&mut random, length),
        "give-ups" => give_ups(&mut random, length),
        "quorum-faults" => quorum_faults(&mut random, length),
        _ => {
            let mood = mood(kind, &mut random, length);
            Author::new(mood, random).write(length)
        }
    })
}

/// A length for a file of a kind: many short, a good share long, some at the
/// limit and some one above it.
pub fn length(kind: &str, random: &mut Random) -> usize {
    let short = random.within(8, 600);
    match (kind, random.below(100)) {
        (_, 0..2) => INPUT_LONGEST + 1,
        ("small" | "small-contexts", _) => short,
        ("small-joins" | "small-quorum", _) => 2 * short,
        (_, 2..10) => INPUT_LONGEST,
        ("noise", _) => random.below(300),
        ("removals" | "pending-writes", 10..80) => random.within(100, 3000),
        ("context-faults" | "join-faults" | "quorum-faults", 10..80) => random.within(100, 6000),
        ("give-ups", 10..70) => random.within(30, 6000),
        (_, 10..50) => random.within(30_000, INPUT_LONGEST),
        (_, 50..75) => random.within(600, 30_000),
        _ => short,
    }
}

/// A length for a small run for which an order is looked for. The records of
/// copies come on top, so that there is as much traffic with joins as without.
pub fn small_length(kind: &str, random: &mut Random) -> usize {
    match kind {
        "small-joins" | "small-quorum" => random.within(300, 1000),
        _ => random.within(200, 700),
    }
}

/// Random bytes, behind a start or not.
fn noise(random: &mut Random, length: usize) -> Vec<u8> {
    let mut bytes = Vec::with_capacity(length + 4);
    if random.chance(600) {
        let replicas = random.within(1, 8) as u8;
        append(Record::Start(Start::Chain { replicas }), &mut bytes);
    }
    let highest = random.one_of(&[3, 12, 40, 255]);
    while bytes.len() < length {
        bytes.push(random.within(0, highest) as u8);
    }
    bytes.truncate(length);
    bytes
}

/// A number below a random power of two, so that small ones are common.
fn any_number(random: &mut Random) -> u32 {
    let bits = random.within(0, 32);
    (random.draw() >> 32 >> (32 - bits)) as u32
}

/// Well-formed records after a start, fields without a look at any state.
fn random_steps(random: &mut Random, length: usize) -> Vec<u8> {
    let mut bytes = Vec::with_capacity(length + LONGEST);
    let replicas = random.within(1, 8) as u8;
    append(Record::Start(Start::Chain { replicas }), &mut bytes);
    while bytes.len() < length {
        let small = random.below(12) as u16;
        let large = any_number(random) as u16;
        let pair = random.one_of(&[small, small, large]);
        let byte = random.one_of(&[pair as u8, random.0 as u8 % 10]);
        let step = match random.below(16) {
            0 => Step::Read { object: pair },
            1 => Step::Write {
                object: pair,
                value: any_number(random),
            },
            2 => Step::Lose { position: pair },
            3 | 4 => Step::Repeat { position: pair },
            5..=7 => Step::Advance { replica: byte },
            8 => Step::Tell { replica: byte },
            9 => Step::GiveUp {
                operation: u32::from(pair),
            },
            10 if random.chance(100) => Step::Replace { switch: pair },
            11 if random.chance(20) => Step::Remove { replica: byte },
            _ => Step::Deliver {
                position: pair,
                choice: byte,
            },
        };
        append(Record::Step(step), &mut bytes);
    }
    bytes.truncate(length);
    bytes
}

/// A run that gets a fault. Its give-ups have length 2, by which the fault's
/// place is drawn; `with_long_give_ups` comes after it.
fn unspoiled(kind: &str, random: &mut Random, length: usize) -> Vec<u8> {
    let mut mood = mood(kind, random, length);
    mood.short = 1000;
    let seed = random.draw();
    Author::new(mood, Random::new(seed)).write(length)
}

/// A file with its give-ups in four bytes, of at most this length.
fn with_long_give_ups(mut bytes: Vec<u8>, length: usize) -> Vec<u8> {
    bytes.truncate(length);
    let mut long = in_four_bytes(&bytes);
    long.truncate(length);
    long
}

/// A run of some other kind with a fault put in its bytes.
fn damaged(random: &mut Random, length: usize) -> Vec<u8> {
    let sound = random.one_of(&KINDS[..MOODS]).0;
    let mut bytes = unspoiled(sound, random, length);
    if bytes.is_empty() {
        return bytes;
    }
    let anywhere = random.below(bytes.len());
    let parts: Vec<usize> = pieces(&bytes).iter().map(|p| p.len()).collect();
    let count = random.below(parts.len());
    let boundary: usize = parts[..count].iter().sum();
    match random.below(8) {
        0 => bytes.truncate(anywhere),
        1 => bytes[boundary] = random.draw() as u8,
        2 => spoil_length(&mut bytes, boundary, random),
        3 => insert(&mut bytes, boundary, &[32, 0, 1, random.below(10) as u8]),
        4 => bytes[anywhere] ^= 1 << random.below(8),
        5 => {
            let end = bytes.len().min(anywhere + random.within(1, 5));
            bytes.drain(anywhere..end);
        }
        6 => insert(&mut bytes, anywhere, &[random.draw() as u8]),
        _ => spoil_start(&mut bytes, random),
    }
    with_long_give_ups(bytes, length)
}

/// A run with reads of contexts, many of them refused. Into most runs a record of
/// tag 11 with a wrong length is put somewhere; in some the bytes of a record of
/// tag 11 are damaged.
fn context_faults(random: &mut Random, length: usize) -> Vec<u8> {
    let mut bytes = unspoiled("context-faults", random, length);
    if bytes.is_empty() {
        return bytes;
    }
    let mut places = Vec::new();
    let mut contexts = Vec::new();
    let mut place = 0;
    for piece in pieces(&bytes) {
        places.push(place);
        if piece[0] == 11 {
            contexts.push(place);
        }
        place += piece.len();
    }
    places.push(place);
    let anywhere = random.one_of(&places);
    let context = match contexts.as_slice() {
        [] => anywhere,
        contexts => random.one_of(contexts),
    };
    let inside = context + random.below(20);
    match random.below(40) {
        0..32 => insert(&mut bytes, anywhere, &wrong_context(random)),
        32..34 => spoil_length(&mut bytes, context, random),
        34..36 => bytes.truncate(inside),
        36..38 => {
            if let Some(byte) = bytes.get_mut(inside) {
                *byte ^= 1 << random.below(8);
            }
        }
        _ => {}
    }
    with_long_give_ups(bytes, length)
}

/// A record of tag 11 with a wrong length, at times without all its content.
fn wrong_context(random: &mut Random) -> Vec<u8> {
    let near = random.one_of(&[0, 1, 2, 3, 5, 7, 9, 11, 13, 15, 17, 18, 19, 20]);
    let far = random.one_of(&[24, 32, 255, 256, 260, 272, 1024, 1040, 4096, 65_535]);
    let length = match random.below(6) {
        0 => far,
        _ => near,
    };
    let [high, low] = (length as u16).to_be_bytes();
    let mut bytes = vec![11, high, low];
    let content = match random.below(8) {
        0 => random.below(length + 1),
        _ => length,
    };
    for place in 0..content {
        let byte = random.below(256) as u8;
        bytes.push(if place % 2 == 0 { byte % 4 } else { byte });
    }
    bytes
}

/// A run with joins, many steps of them refused. Into most runs a record of tag
/// 12 or 13 with a wrong length is put somewhere; some are cut in their midst or
/// have one bit changed.
fn join_faults(random: &mut Random, length: usize) -> Vec<u8> {
    let mut bytes = unspoiled("join-faults", random, length);
    if bytes.is_empty() {
        return bytes;
    }
    let tag = random.one_of(&[12, 13]);
    let (mut places, mut joins) = (Vec::new(), Vec::new());
    let mut place = 0;
    for piece in pieces(&bytes) {
        places.push(place);
        if piece[0] == tag {
            joins.push(place);
        }
        place += piece.len();
    }
    let anywhere = random.one_of(&places);
    let join = match joins.as_slice() {
        [] => anywhere,
        joins => random.one_of(joins),
    };
    match random.below(20) {
        0..12 => insert(&mut bytes, anywhere, &wrong_join(random)),
        12..14 => bytes.truncate(join + random.within(1, 2)),
        14..16 => {
            if let Some(byte) = bytes.get_mut(join + random.below(3)) {
                *byte ^= 1 << random.below(8);
            }
        }
        _ => {}
    }
    with_long_give_ups(bytes, length)
}

/// A record of tag 12 or 13 with a wrong length, or of the next tag, at times
/// without all its content.
fn wrong_join(random: &mut Random) -> Vec<u8> {
    let tag = random.one_of(&[12, 12, 12, 13, 13, 13, 14]);
    let length = random.one_of(&[1, 1, 2, 2, 3, 4, 6, 13, 255, 256, 512, 65_535]);
    let [high, low] = (length as u16).to_be_bytes();
    let content = match random.below(4) {
        0 => random.below(length + 1),
        _ => length,
    };
    let mut bytes = vec![tag, high, low];
    bytes.extend((0..content).map(|_| random.below(14) as u8));
    bytes
}

/// A run with give-ups of both lengths. Into some runs one with a wrong length is
/// put somewhere; some have another length stated for one, end inside one, or end
/// right behind one.
fn give_ups(random: &mut Random, length: usize) -> Vec<u8> {
    let mood = mood("give-ups", random, length);
    let seed = random.draw();
    let mut bytes = Author::new(mood, Random::new(seed)).write(length);
    if bytes.is_empty() {
        return bytes;
    }
    let (mut places, mut ours) = (Vec::new(), Vec::new());
    let mut place = 0;
    for piece in pieces(&bytes) {
        places.push(place);
        if piece[0] == 10 {
            ours.push((place, piece.len()));
        }
        place += piece.len();
    }
    let anywhere = random.one_of(&places);
    let (place, size) = match ours.as_slice() {
        [] => (anywhere, 4),
        ours => random.one_of(ours),
    };
    match random.below(20) {
        0..6 => insert(&mut bytes, anywhere, &wrong_give_up(random)),
        6..9 => spoil_length(&mut bytes, place, random),
        9..16 => bytes.truncate(place + random.within(1, size - 1)),
        16..18 => bytes.truncate(place + size),
        _ => {}
    }
    bytes.truncate(length);
    bytes
}

/// A record of tag 10 with a wrong length, at times without all its content.
fn wrong_give_up(random: &mut Random) -> Vec<u8> {
    let near = random.one_of(&[0, 1, 3, 3, 3, 5, 6, 7, 8]);
    let far = random.one_of(&[10, 255, 256, 258, 260, 512, 514, 1024, 1028, 65_535]);
    let length = match random.below(5) {
        0 => far,
        _ => near,
    };
    let [high, low] = (length as u16).to_be_bytes();
    let content = match random.below(8) {
        0 => random.below(length + 1),
        _ => length,
    };
    let mut bytes = vec![10, high, low];
    bytes.extend((0..content).map(|_| random.one_of(&[0, 0, 0, 1, 2, 3, 10])));
    bytes
}

/// A run of a leader with followers, many of its steps refused. Into some runs a
/// record of tag 14 or 33 with a wrong length, or a second start, is put somewhere;
/// some are cut, have a bit changed or another start.
fn quorum_faults(random: &mut Random, length: usize) -> Vec<u8> {
    let mood = mood("quorum-faults", random, length);
    let seed = random.draw();
    let mut bytes = Author::new(mood, Random::new(seed)).write(length);
    if bytes.is_empty() {
        return bytes;
    }
    let parts: Vec<usize> = pieces(&bytes).iter().map(|p| p.len()).collect();
    let count = random.below(parts.len());
    let boundary: usize = parts[..count].iter().sum();
    let anywhere = random.below(bytes.len());
    match random.below(20) {
        0..4 => insert(&mut bytes, boundary, &wrong_execute(random)),
        4 | 5 => spoil_length(&mut bytes, boundary, random),
        6 => bytes.truncate(anywhere),
        7 => bytes[anywhere] ^= 1 << random.below(8),
        8 | 9 => {
            let tag = random.one_of(&[32, 33]);
            insert(&mut bytes, boundary, &[tag, 0, 1, random.below(10) as u8]);
        }
        10 => spoil_quorum_start(&mut bytes, random),
        _ => {}
    }
    bytes.truncate(length);
    bytes
}

/// A record of tag 14 or 33 with a wrong length, at times without all its content.
fn wrong_execute(random: &mut Random) -> Vec<u8> {
    let tag = random.one_of(&[14, 14, 14, 33]);
    let length = match tag {
        33 => random.one_of(&[0, 2, 2, 3, 256, 257]),
        _ => random.one_of(&[1, 1, 2, 2, 3, 4, 14, 255, 256, 512, 65_535]),
    };
    let [high, low] = (length as u16).to_be_bytes();
    let content = match random.below(4) {
        0 => random.below(length + 1),
        _ => length,
    };
    let mut bytes = vec![tag, high, low];
    bytes.extend((0..content).map(|_| random.below(15) as u8));
    bytes
}

/// Makes the start of a quorum store another one: of a wrong length, of a chain, or
/// of the next tag.
fn spoil_quorum_start(bytes: &mut Vec<u8>, random: &mut Random) {
    match random.below(4) {
        0 => drop(bytes.drain(..bytes.len().min(4))),
        1 => insert(bytes, 0, &[33, 0, 2, 3]),
        2 => bytes[0] = 32,
        _ => bytes[0] = 35,
    }
}

/// Puts bytes into a file at a place.
fn insert(bytes: &mut Vec<u8>, place: usize, more: &[u8]) {
    bytes.splice(place..place, more.iter().copied());
}

/// Changes one of the two length bytes of the record at a place.
fn spoil_length(bytes: &mut [u8], place: usize, random: &mut Random) {
    let which = random.within(1, 2);
    if let Some(byte) = bytes.get_mut(place + which) {
        *byte = random.one_of(&[0, 1, 2, 3, 4, 6, 7, 255]);
    }
}

/// Makes the first record something else than a start.
fn spoil_start(bytes: &mut Vec<u8>, random: &mut Random) {
    match random.below(4) {
        0 => drop(bytes.drain(..bytes.len().min(4))),
        1 => insert(bytes, 0, &[3, 0, 3, 0, 0, 0]),
        2 => insert(bytes, 0, &[32, 0, 2, 1]),
        _ => insert(bytes, 0, &[32, 0, 1, random.draw() as u8]),
    }
}

#[cfg(test)]
mod tests {
    use super::*;
    use crate::records::in_two_bytes;
    use crate::run::walk;

    #[test]
    fn a_seed_gives_the_same_file_again() {
        for (kind, _) in KINDS {
            let first = generate(kind, 7, 900);
            assert_eq!(first, generate(kind, 7, 900), "{kind}");
            assert_ne!(first, generate(kind, 8, 900), "{kind}");
        }
        assert_eq!(generate("no-such-kind", 7, 900), None);
    }

    /// Where seven bytes are left a give-up may fit.
    #[test]
    fn the_length_is_met_and_most_files_end_whole() {
        for (kind, _) in &KINDS[..MOODS] {
            for length in (0..80).chain([65_535, 65_536, 65_537]) {
                let file = generate(kind, length as u64, length).unwrap();
                assert_eq!(file.len(), length, "{kind}");
                let whole = pieces(&file)
                    .iter()
                    .all(|p| crate::records::read(p).is_some());
                let small = matches!(length, 1..=3 | 5..=7);
                assert!(length == 11 || whole != small, "{kind} {length}");
            }
        }
    }

    /// As above; a read of two objects may fit in seven bytes too.
    #[test]
    fn files_with_contexts_end_whole_too() {
        for kind in ["contexts", "small-contexts"] {
            for length in (0..80).chain([65_535, 65_536, 65_537]) {
                let file = generate(kind, length as u64, length).unwrap();
                assert_eq!(file.len(), length, "{kind}");
                let sound = |p: &&[u8]| crate::records::read(p).is_some();
                let whole = pieces(&file).iter().all(sound);
                let small = matches!(length, 1..=3 | 5..=7);
                assert!(length == 11 || whole != small, "{kind} {length}");
            }
        }
    }

    /// As above; but where three or seven bytes are left a join, a copy or a
    /// leader's step may fit.
    #[test]
    fn files_with_joins_end_whole_too() {
        let executing = ["quorum", "quorum-full", "chain-executes", "small-quorum"];
        for kind in ["joins", "small-joins"].into_iter().chain(executing) {
            for length in (0..80).chain([65_535, 65_536, 65_537]) {
                let file = generate(kind, length as u64, length).unwrap();
                assert_eq!(file.len(), length, "{kind}");
                let sound = |p: &&[u8]| crate::records::read(p).is_some();
                let whole = pieces(&file).iter().all(sound);
                let small = matches!(length, 1..=3 | 5..=7);
                assert!(
                    matches!(length, 7 | 11) || whole != small,
                    "{kind} {length}"
                );
            }
        }
    }

    #[test]
    fn runs_that_look_at_the_state_are_mostly_accepted() {
        let kinds = ["accepted", "dense", "colliding", "replacements", "small"];
        let later = [
            "pending-writes",
            "contexts",
            "joins",
            "quorum",
            "quorum-full",
            "quorum-acks",
            "quorum-replacements",
        ];
        for kind in kinds.into_iter().chain(later) {
            let file = generate(kind, 3, 30_000).unwrap();
            let (mut all, mut accepted) = (0, 0);
            walk(&file, |_, outcome| {
                all += 1;
                accepted += usize::from(outcome.is_ok());
            });
            assert!(
                kind == "small" || accepted * 10 > all * 8,
                "{kind}: {accepted} of {all}"
            );
        }
    }

    #[test]
    fn small_files_begin_few_operations() {
        for (kind, most) in SMALL.into_iter().zip([8, 12, 12, 11]) {
            for seed in 0..50 {
                let file = generate(kind, seed, 600).unwrap();
                let begins = pieces(&file)
                    .iter()
                    .filter(|p| matches!(p[0], 1 | 2 | 11))
                    .count();
                assert!(begins <= most, "{kind}: {begins}");
            }
        }
    }

    /// A checksum of the first four fifths of two files of each of some kinds, with
    /// length 2 for each give-up.
    fn checksum(kinds: &[(&str, &str)]) -> u64 {
        let mut sum: u64 = 0;
        for (kind, _) in kinds {
            for (seed, length) in [(1, 900), (2, 5000)] {
                let file = in_two_bytes(&generate(kind, seed, length).unwrap());
                for &byte in file.iter().take(length / 5 * 4) {
                    sum = sum.wrapping_mul(0x100_0000_01b3) ^ u64::from(byte);
                }
            }
        }
        sum
    }

    /// The kinds that stand before the contexts, those before the joins, those before
    /// the give-ups, and those before the quorum stores: a kind that is added leaves their bytes as they are, up
    /// to where a file's length ends it and but for the length of give-ups. A rule
    /// that changes what a run does changes them (Req 10 those with late completions).
    #[test]
    fn earlier_kinds_keep_their_bytes() {
        assert_eq!(checksum(&KINDS[..17]), 3_996_559_122_455_926_079);
        assert_eq!(checksum(&KINDS[17..20]), 17_134_643_542_790_747_144);
        assert_eq!(checksum(&KINDS[20..23]), 18_333_810_568_927_366_581);
        assert_eq!(checksum(&KINDS[23..24]), 5_917_062_694_118_375_494);
    }

    /// Of the other kinds only those with faults in their bytes may have any.
    #[test]
    fn only_one_kind_has_short_give_ups() {
        let count = |kind: &str, length: u8| -> usize {
            let files = (0..20).map(|seed| generate(kind, seed, 3000).unwrap());
            let ours = |p: &&[u8]| p.starts_with(&[10, 0, length]);
            files
                .map(|f| pieces(&f).into_iter().filter(ours).count())
                .sum()
        };
        let faulty = [
            "damaged",
            "noise",
            "context-faults",
            "join-faults",
            "give-ups",
            "quorum-faults",
        ];
        let sound = KINDS.iter().filter(|(kind, _)| !faulty.contains(kind));
        for (kind, _) in sound {
            assert_eq!(count(kind, 2), 0, "{kind}");
        }
        assert!(count("full-links", 4) >= 500);
        let (short, long) = (count("give-ups", 2), count("give-ups", 4));
        assert!(short >= 500 && long >= 500, "{short}, {long}");
    }
}
