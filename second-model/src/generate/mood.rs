//! What a run of each kind tends to do.

use super::Random;
use crate::model::{Start, OBJECTS, REPLICAS, SIZES};

/// The places of the actions in a table of weights.
pub const READ: usize = 0;
pub const WRITE: usize = 1;
pub const DELIVER: usize = 2;
pub const LOSE: usize = 3;
pub const REPEAT: usize = 4;
pub const ADVANCE: usize = 5;
pub const REPLACE: usize = 6;
pub const TELL: usize = 7;
pub const REMOVE: usize = 8;
pub const GIVE_UP: usize = 9;
pub const CONTEXT: usize = 10;
pub const JOIN: usize = 11;
pub const COPY: usize = 12;
pub const EXECUTE: usize = 13;
/// How many actions there are.
pub const ACTIONS: usize = 14;

/// The store that a run starts.
#[derive(Clone, Copy, PartialEq, Eq)]
pub enum Shape {
    Chain,
    Quorum,
}

/// What a run tends to do.
pub struct Mood {
    /// What it starts.
    pub shape: Shape,
    /// Replicas at the start.
    pub replicas: u8,
    /// The objects it reads and writes.
    pub objects: Vec<u16>,
    /// How often each action is taken.
    pub weights: [usize; ACTIONS],
    /// The numbers of waiting packets, linked writes and open operations
    /// around which it stays.
    pub waiting: usize,
    pub linked: usize,
    pub open: usize,
    /// Of a thousand deliveries, those of the oldest packet.
    pub orderly: usize,
    /// Of a thousand deliveries, those of the first unstamped write.
    pub eager: usize,
    /// Of a thousand steps, those with fields at their limits.
    pub wild: usize,
    /// Are direct reads held back until their replica is ahead?
    pub mischief: bool,
    /// Are reads brought to the switch while their object has a mark, normal
    /// reads with a stamp repeated and held back, and heads removed with the
    /// write that such a read goes round?
    pub rounds: bool,
    /// Of a thousand completions, those held back or lost.
    pub late: usize,
    /// Of a thousand normal reads, those held back while a join is under way, so
    /// that they meet a former tail.
    pub patient: usize,
    /// The most operations begun.
    pub begins: u32,
    /// Of a thousand give-ups of operations that have two bytes, those with
    /// length 2.
    pub short: usize,
    /// Do wild give-ups name operations above 65,535 and late ones?
    pub far: bool,
    /// In a quorum store, the number of entries not executed around which it stays.
    pub unexecuted: usize,
    /// In a quorum store, the items in its link with which a follower beyond a
    /// majority is advanced.
    pub lag: usize,
    /// Of a thousand acknowledgements, those held back; losses and repeats are as
    /// often of one.
    pub acks: usize,
}

impl Mood {
    /// The start of the file.
    pub fn start(&self) -> Start {
        let replicas = self.replicas;
        match self.shape {
            Shape::Chain => Start::Chain { replicas },
            Shape::Quorum => Start::Quorum { replicas },
        }
    }

    /// The same, or a near one that is taken.
    pub fn sound_start(&self) -> Start {
        let n = self.replicas;
        match self.shape {
            Shape::Chain => Start::Chain {
                replicas: n.clamp(1, REPLICAS),
            },
            Shape::Quorum => Start::Quorum {
                replicas: if SIZES.contains(&n) { n } else { SIZES[0] },
            },
        }
    }
}

/// The mood of a kind.
pub fn mood(kind: &str, random: &mut Random, length: usize) -> Mood {
    let mut mood = Mood {
        shape: Shape::Chain,
        replicas: random.within(1, 8) as u8,
        objects: some_objects(random, 40),
        weights: [
            1500, 1500, 6000, 150, 200, 3000, 4, 1500, 0, 100, 0, 0, 0, 0,
        ],
        waiting: random.within(3, 30),
        linked: random.within(2, 12),
        open: random.within(20, 60),
        orderly: 600,
        eager: 0,
        wild: 10,
        mischief: false,
        rounds: false,
        late: 0,
        patient: 0,
        begins: u32::MAX,
        short: 0,
        far: false,
        unexecuted: 0,
        lag: 0,
        acks: 0,
    };
    mood.weights[REMOVE] = removal_weight(length, 3);
    match kind {
        "dense" => mood.objects = some_objects(random, 3),
        "full-waiting" => fill_waiting(&mut mood, random),
        "full-links" => fill_links(&mut mood, random),
        "full-open" => fill_open(&mut mood, random),
        "colliding" => collide(&mut mood, random),
        "replacements" => replace_often(&mut mood, random),
        "removals" => remove_often(&mut mood, random, length),
        "repeats-losses" => mood.weights[LOSE..=REPEAT].fill(2500),
        "direct-reads" => read_often(&mut mood, random),
        "pending-writes" => go_round(&mut mood, random, length),
        "lone" => mood.replicas = 1,
        "small" => stay_small(&mut mood, random, length),
        "limits" => go_wild(&mut mood, random),
        "contexts" => read_contexts(&mut mood, random, length),
        "context-faults" => refuse_contexts(&mut mood, random, length),
        "small-contexts" => stay_small_with_contexts(&mut mood, random, length),
        "joins" => join_often(&mut mood, random),
        "join-faults" => refuse_joins(&mut mood, random),
        "small-joins" => stay_small_with_joins(&mut mood, random, length),
        "give-ups" => give_up_often(&mut mood, random),
        "quorum" => run_quorum(&mut mood, random),
        "quorum-full" => fill_quorum(&mut mood, random),
        "quorum-acks" => mistreat_acknowledgements(&mut mood, random),
        "quorum-replacements" => replace_over_a_quorum(&mut mood, random),
        "quorum-faults" => refuse_in_a_quorum(&mut mood, random),
        "chain-executes" => execute_in_a_chain(&mut mood, random),
        "small-quorum" => stay_small_with_a_quorum(&mut mood, random),
        _ => {}
    }
    mood
}

/// The weight that makes about this many removals in a file of this length.
fn removal_weight(length: usize, removals: usize) -> usize {
    let steps = length / 5 + 1;
    14_000 * removals / steps
}

fn some_objects(random: &mut Random, most: usize) -> Vec<u16> {
    let count = random.within(1, most);
    let object = |_| random.below(usize::from(OBJECTS)) as u16;
    (0..count).map(object).collect()
}

fn fill_waiting(mood: &mut Mood, random: &mut Random) {
    mood.waiting = random.within(61, 65);
    mood.open = random.within(30, 63);
    mood.weights[REPEAT] = 1500;
    mood.weights[GIVE_UP] = 600;
    mood.replicas = random.one_of(&[1, 1, 2, 3, 8]);
}

fn fill_links(mood: &mut Mood, random: &mut Random) {
    mood.replicas = random.within(2, 8) as u8;
    mood.objects = some_objects(random, 12);
    mood.linked = random.within(60, 65);
    mood.open = 30;
    mood.weights[WRITE] = 3500;
    mood.weights[READ] = 300;
    mood.weights[ADVANCE] = 6000;
    mood.weights[GIVE_UP] = 2500;
    mood.orderly = 950;
}

fn fill_open(mood: &mut Mood, random: &mut Random) {
    mood.open = random.within(62, 65);
    mood.waiting = random.within(4, 64);
    mood.weights[LOSE] = 1500;
}

/// Objects that share slots: those of P4 and P5, those that share one with a
/// random object, or sixteen that have eight slots between them.
fn collide(mood: &mut Mood, random: &mut Random) {
    mood.objects = match random.below(4) {
        0 => vec![0, 16, 17, 32, 33, 256, 512],
        1 => sharing(random),
        _ => sixteen(random),
    };
    mood.weights[WRITE] = 4000;
    mood.waiting = random.within(20, 60);
    mood.eager = random.one_of(&[100, 700, 850]);
    mood.orderly = random.one_of(&[100, 500, 900]);
}

/// A random object and some that share a slot with it.
fn sharing(random: &mut Random) -> Vec<u16> {
    let base = random.below(1024) as u16;
    let shares =
        |o: &u16| o % 16 == base % 16 || (o / 16) % 16 == (base / 16) % 16 || o / 64 == base / 64;
    let all: Vec<u16> = (0..1024).filter(shares).collect();
    let count = random.within(4, 24);
    let mut some: Vec<u16> = (0..count).map(|_| random.one_of(&all)).collect();
    some.push(base);
    some
}

/// Sixteen objects with two slots in the first stage, two in the second and
/// four in the third.
fn sixteen(random: &mut Random) -> Vec<u16> {
    let base = random.below(1024) as u16;
    let (first, second) = (random.within(1, 15) as u16, random.within(1, 3) as u16);
    let object = |k: u16| {
        let low = (base ^ (k % 2 * first)) % 16;
        let middle = ((base / 16) ^ (k / 2 % 2 * second)) % 4;
        let high = (base / 64 + 4 * (k / 4)) % 16;
        64 * high + 16 * middle + low
    };
    (0..16).map(object).collect()
}

fn replace_often(mood: &mut Mood, random: &mut Random) {
    mood.objects = some_objects(random, 6);
    mood.weights[REPLACE] = random.one_of(&[30, 100, 400]);
    mood.weights[TELL] = random.one_of(&[300, 1000, 4000]);
    mood.weights[REPEAT] = 800;
    mood.orderly = random.one_of(&[100, 600]);
}

fn remove_often(mood: &mut Mood, random: &mut Random, length: usize) {
    mood.replicas = random.within(3, 8) as u8;
    mood.objects = some_objects(random, 6);
    mood.weights[REMOVE] = removal_weight(length, 9);
    mood.weights[WRITE] = 3000;
    mood.linked = random.within(6, 50);
    mood.orderly = 800;
}

fn read_often(mood: &mut Mood, random: &mut Random) {
    mood.replicas = random.within(2, 8) as u8;
    mood.objects = some_objects(random, 4);
    mood.weights[READ] = 3500;
    mood.weights[WRITE] = 800;
    mood.weights[REPEAT] = 500;
}

/// Reads meet marks: writes linger in the links, completions come late or
/// never, so that direct reads stay off for long.
fn go_round(mood: &mut Mood, random: &mut Random, length: usize) {
    mood.replicas = random.one_of(&[1, 2, 2, 3, 3, 4, 5, 8]);
    mood.objects = some_objects(random, 4);
    mood.waiting = random.within(4, 20);
    mood.weights[READ] = 2500;
    mood.weights[LOSE] = 600;
    mood.weights[REPEAT] = random.one_of(&[200, 1500]);
    mood.weights[REPLACE] = random.one_of(&[0, 4, 60]);
    mood.weights[TELL] = 4000;
    mood.weights[REMOVE] = removal_weight(length, random.one_of(&[0, 2, 6]));
    mood.orderly = random.one_of(&[100, 500]);
    mood.rounds = true;
    mood.late = random.one_of(&[0, 500, 900, 990, 1000]);
}

/// Few operations on one or two objects. Writes linger in the links and direct
/// reads in the list, so that reads meet replicas that differ.
fn stay_small(mood: &mut Mood, random: &mut Random, length: usize) {
    mood.replicas = random.one_of(&[1, 2, 2, 3, 3, 3, 4]);
    mood.objects = some_objects(random, 2);
    mood.begins = random.within(5, 8) as u32;
    mood.waiting = random.within(2, 5);
    mood.linked = 0;
    mood.weights = [700, 450, 6000, 60, 200, 2500, 30, 2500, 0, 5, 0, 0, 0, 0];
    mood.weights[ADVANCE] = random.one_of(&[400, 1000, 2500]);
    mood.weights[REMOVE] = removal_weight(length, random.one_of(&[0, 1, 1]));
    mood.orderly = random.one_of(&[0, 200, 500]);
    mood.mischief = random.chance(800);
    mood.wild = 0;
}

fn go_wild(mood: &mut Mood, random: &mut Random) {
    mood.wild = random.one_of(&[100, 400]);
    mood.objects = vec![0, 1, 15, 16, 63, 64, 511, 512, 1022, 1023];
    if random.chance(100) {
        mood.replicas = random.one_of(&[0, 9, 10, 128, 255]);
    }
}

/// So many objects, none twice.
fn different_objects(random: &mut Random, first: usize, last: usize) -> Vec<u16> {
    let count = random.within(first, last);
    let mut objects = Vec::new();
    while objects.len() < count {
        let object = random.below(usize::from(OBJECTS)) as u16;
        if !objects.contains(&object) {
            objects.push(object);
        }
    }
    objects
}

/// Reads of several objects among single reads and writes of the same few
/// objects. Writes are rare or not; direct reads are held back, or normal reads,
/// or neither; switches are replaced often, now and then or never.
fn read_contexts(mood: &mut Mood, random: &mut Random, length: usize) {
    mood.replicas = random.one_of(&[1, 2, 2, 3, 3, 4, 5, 8]);
    mood.objects = different_objects(random, 2, 10);
    mood.weights[READ] = 700;
    mood.weights[WRITE] = random.one_of(&[60, 150, 400, 1200]);
    mood.weights[CONTEXT] = 2500;
    mood.weights[REPEAT] = random.one_of(&[200, 1500]);
    mood.weights[ADVANCE] = random.one_of(&[1000, 6000]);
    mood.weights[LOSE] = random.one_of(&[150, 600]);
    mood.weights[REPLACE] = random.one_of(&[0, 4, 4, 60]);
    mood.weights[TELL] = random.one_of(&[300, 4000, 4000]);
    mood.weights[REMOVE] = removal_weight(length, random.one_of(&[0, 2, 6]));
    mood.orderly = random.one_of(&[100, 500, 800]);
    mood.waiting = random.within(3, 20);
    mood.linked = random.one_of(&[0, 0, 0, 6]);
    mood.late = random.one_of(&[0, 0, 500, 900]);
    match random.below(3) {
        0 => mood.mischief = true,
        1 => mood.rounds = true,
        _ => {}
    }
    match random.below(8) {
        0 => crowd_contexts(mood, random),
        1 => fill_open(mood, random),
        2 => fill_both(mood),
        _ => {}
    }
}

/// The list nearly full, most of it packets of contexts.
fn crowd_contexts(mood: &mut Mood, random: &mut Random) {
    mood.waiting = random.within(61, 65);
    mood.weights[READ] = 50;
    mood.weights[WRITE] = 100;
    mood.weights[REPEAT] = 2500;
    mood.weights[GIVE_UP] = 600;
}

/// 64 packets waiting and 64 operations open.
fn fill_both(mood: &mut Mood) {
    (mood.waiting, mood.open) = (65, 65);
    mood.weights[DELIVER] = 1500;
    mood.weights[LOSE..=REPEAT].fill(0);
    mood.weights[GIVE_UP] = 0;
}

/// The same with fields at their limits: objects above 1,023, objects named
/// twice, and both together.
fn refuse_contexts(mood: &mut Mood, random: &mut Random, length: usize) {
    read_contexts(mood, random, length);
    mood.wild = random.one_of(&[50, 400]);
}

/// Few operations on two or three objects, which most reads name together. The
/// links move slowly, so that replicas differ for long.
fn stay_small_with_contexts(mood: &mut Mood, random: &mut Random, length: usize) {
    stay_small(mood, random, length);
    mood.objects = different_objects(random, 2, 3);
    mood.begins = random.within(8, 12) as u32;
    mood.weights[READ] = 400;
    mood.weights[WRITE] = 300;
    mood.weights[CONTEXT] = 1200;
    mood.weights[ADVANCE] = random.one_of(&[50, 150, 400]);
}

/// Objects at both ends of what some copies copy.
const AT_THE_ENDS: [u16; 8] = [0, 63, 64, 127, 128, 959, 960, 1023];

/// Joins one after the other while reads and writes of few objects go on; they
/// are quick or slow, and ended early often or seldom.
fn join_often(mood: &mut Mood, random: &mut Random) {
    mood.replicas = random.one_of(&[1, 1, 2, 2, 3, 3, 4, 6, 7, 8]);
    mood.objects = match random.below(3) {
        0 => AT_THE_ENDS.to_vec(),
        _ => different_objects(random, 2, 8),
    };
    mood.weights[JOIN] = random.one_of(&[300, 3000]);
    mood.weights[COPY] = random.one_of(&[1500, 4000, 20_000]);
    mood.weights[REMOVE] = random.one_of(&[10, 60, 200, 400]);
    mood.weights[REPLACE] = random.one_of(&[0, 4, 40]);
    mood.weights[TELL] = random.one_of(&[600, 4000]);
    mood.weights[CONTEXT] = random.one_of(&[0, 0, 600]);
    mood.weights[WRITE] = random.one_of(&[300, 1500]);
    mood.waiting = random.within(2, 20);
    mood.linked = random.one_of(&[0, 0, 4]);
    mood.orderly = random.one_of(&[100, 500, 900]);
    mood.late = random.one_of(&[0, 0, 900]);
    mood.patient = random.one_of(&[0, 800, 950]);
    match random.below(6) {
        0 => mood.mischief = true,
        1 => mood.rounds = true,
        2 => mood.waiting = random.within(61, 65),
        3 => use_numbers_up(mood),
        _ => {}
    }
}

/// Joins and removals so often that a long run needs all the numbers.
fn use_numbers_up(mood: &mut Mood) {
    mood.weights[JOIN] = 20_000;
    mood.weights[COPY] = 60_000;
    mood.weights[REMOVE] = 3000;
}

/// The same with joins and copies that are refused, and with the newcomer's
/// number where only live ones are taken.
fn refuse_joins(mood: &mut Mood, random: &mut Random) {
    join_often(mood, random);
    mood.replicas = random.one_of(&[1, 2, 7, 8, 8]);
    mood.wild = random.one_of(&[50, 400]);
}

/// Few operations on two or three objects, and so many copies that there is a
/// whole join or several in most runs.
fn stay_small_with_joins(mood: &mut Mood, random: &mut Random, length: usize) {
    stay_small(mood, random, length);
    mood.replicas = random.one_of(&[1, 1, 2, 2, 3]);
    mood.objects = different_objects(random, 2, 3);
    mood.begins = random.within(7, 12) as u32;
    mood.weights[CONTEXT] = random.one_of(&[0, 0, 500]);
    mood.weights[JOIN] = 4000;
    mood.weights[COPY] = random.one_of(&[3000, 8000, 20_000]);
    mood.weights[REMOVE] = removal_weight(length, random.one_of(&[0, 1, 3, 6]));
    mood.patient = random.one_of(&[0, 800, 950]);
}

/// Give-ups of both lengths among other steps, of operations open or not; few
/// operations are open, or many. Some runs have contexts and joins.
fn give_up_often(mood: &mut Mood, random: &mut Random) {
    mood.objects = different_objects(random, 2, 8);
    mood.open = random.one_of(&[1, 4, 20, 63]);
    mood.waiting = random.one_of(&[2, 10, 40, 64]);
    mood.weights[REPEAT] = random.one_of(&[200, 1500]);
    mood.weights[GIVE_UP] = random.one_of(&[400, 3000, 12_000]);
    mood.weights[CONTEXT] = random.one_of(&[0, 0, 600]);
    if mood.weights[CONTEXT] > 0 && random.chance(500) {
        mood.weights[JOIN] = 300;
        mood.weights[COPY] = 4000;
    }
    mood.orderly = random.one_of(&[100, 500, 900]);
    mood.wild = random.one_of(&[20, 100, 400]);
    mood.short = random.one_of(&[100, 500, 500, 900, 1000]);
    mood.far = true;
}

/// A leader with followers under reads and writes of few objects. Followers beyond
/// a majority lag far behind or not; completions are late or not; reads are held
/// back until their follower lags, or not.
fn run_quorum(mood: &mut Mood, random: &mut Random) {
    mood.shape = Shape::Quorum;
    mood.replicas = random.one_of(&[3, 3, 3, 5, 5, 7]);
    mood.objects = different_objects(random, 2, 8);
    mood.weights[REMOVE] = 0;
    mood.weights[READ] = random.one_of(&[1500, 3500]);
    mood.weights[WRITE] = random.one_of(&[300, 800, 1500]);
    mood.weights[ADVANCE] = random.one_of(&[1500, 6000]);
    mood.weights[CONTEXT] = random.one_of(&[0, 600, 2500]);
    mood.weights[EXECUTE] = random.one_of(&[1500, 6000]);
    mood.weights[TELL] = 4000;
    mood.waiting = random.within(3, 20);
    mood.linked = random.one_of(&[0, 2, 8, 30]);
    mood.orderly = random.one_of(&[100, 500, 900]);
    mood.late = random.one_of(&[0, 0, 500, 900]);
    mood.unexecuted = random.one_of(&[0, 0, 1, 4]);
    mood.lag = random.one_of(&[0, 2, 10, 50, 62]);
    mood.mischief = random.chance(400);
}

/// The log nearly full, or the links, or the list, or all of them.
fn fill_quorum(mood: &mut Mood, random: &mut Random) {
    run_quorum(mood, random);
    mood.objects = different_objects(random, 2, 8);
    mood.open = 30;
    mood.weights[WRITE] = 3500;
    mood.weights[READ] = 300;
    mood.weights[CONTEXT] = 0;
    mood.weights[ADVANCE] = 6000;
    mood.weights[GIVE_UP] = 2500;
    mood.orderly = random.one_of(&[700, 950]);
    mood.late = 0;
    mood.mischief = false;
    let which = random.below(5);
    mood.unexecuted = match which {
        0 | 1 | 4 => random.within(62, 66),
        _ => random.one_of(&[0, 1, 20]),
    };
    mood.lag = match which {
        2..5 => random.within(62, 66),
        _ => random.one_of(&[0, 4]),
    };
    mood.linked = 0;
    if random.chance(300) {
        mood.waiting = random.within(61, 65);
        mood.weights[REPEAT] = 1500;
    }
}

/// Acknowledgements held back, lost and repeated.
fn mistreat_acknowledgements(mood: &mut Mood, random: &mut Random) {
    run_quorum(mood, random);
    mood.weights[LOSE] = random.one_of(&[150, 800, 1500]);
    mood.weights[REPEAT] = random.one_of(&[200, 1500]);
    mood.weights[WRITE] = 1500;
    mood.acks = random.one_of(&[200, 600, 900]);
    mood.unexecuted = random.one_of(&[0, 0, 4, 20]);
    mood.waiting = random.one_of(&[4, 15, 40]);
}

/// New switches, with completions and followers left behind.
fn replace_over_a_quorum(mood: &mut Mood, random: &mut Random) {
    run_quorum(mood, random);
    mood.objects = different_objects(random, 2, 4);
    mood.weights[WRITE] = 1500;
    mood.weights[REPLACE] = random.one_of(&[30, 100, 300]);
    mood.weights[TELL] = random.one_of(&[1000, 4000, 20_000]);
    mood.weights[REPEAT] = 800;
    mood.late = random.one_of(&[300, 700, 950]);
}

/// The same with steps that this store refuses, fields at their limits, and starts
/// of other sizes.
fn refuse_in_a_quorum(mood: &mut Mood, random: &mut Random) {
    run_quorum(mood, random);
    mood.wild = random.one_of(&[20, 100, 400]);
    mood.weights[REMOVE] = random.one_of(&[20, 200]);
    mood.weights[JOIN] = random.one_of(&[20, 200]);
    mood.weights[COPY] = random.one_of(&[2000, 20_000]);
    if random.chance(150) {
        mood.replicas = random.one_of(&[0, 1, 2, 4, 6, 8, 9, 32, 128, 255]);
    }
}

/// A chain in which a leader's step is tried.
fn execute_in_a_chain(mood: &mut Mood, random: &mut Random) {
    mood.objects = different_objects(random, 2, 8);
    mood.weights[EXECUTE] = random.one_of(&[100, 1500]);
    mood.weights[CONTEXT] = random.one_of(&[0, 600]);
    mood.weights[JOIN] = random.one_of(&[0, 300]);
    mood.weights[COPY] = 4000;
    mood.wild = random.one_of(&[10, 100]);
}

/// Few operations on one or two objects. One follower lags, so that replicas differ.
fn stay_small_with_a_quorum(mood: &mut Mood, random: &mut Random) {
    run_quorum(mood, random);
    mood.replicas = random.one_of(&[3, 3, 3, 5]);
    mood.objects = different_objects(random, 1, 2);
    mood.begins = random.within(6, 11) as u32;
    mood.waiting = random.within(2, 6);
    mood.linked = 0;
    mood.weights[READ] = 700;
    mood.weights[WRITE] = 400;
    mood.weights[CONTEXT] = match mood.objects.len() {
        1 => 0,
        _ => random.one_of(&[0, 300]),
    };
    mood.weights[GIVE_UP] = 5;
    mood.lag = random.one_of(&[4, 10, 62]);
    mood.mischief = random.chance(800);
    mood.wild = 0;
    mood.weights[TELL] = 20_000;
    if random.chance(500) {
        leave_completions_behind(mood, random);
    }
}

/// Completions wait until the switch is replaced, and one follower lags by a write or
/// two.
fn leave_completions_behind(mood: &mut Mood, random: &mut Random) {
    mood.replicas = 3;
    mood.objects.truncate(1);
    mood.begins = random.within(8, 11) as u32;
    mood.weights[CONTEXT] = 0;
    mood.weights[WRITE] = 600;
    mood.weights[REPLACE] = random.one_of(&[100, 300]);
    mood.late = random.one_of(&[900, 1000]);
    mood.lag = random.within(2, 5);
}

#[cfg(test)]
mod tests {
    use super::*;
    use std::collections::HashSet;

    #[test]
    fn sixteen_objects_have_eight_slots() {
        for seed in 0..20 {
            let objects: HashSet<u16> = sixteen(&mut Random::new(seed)).into_iter().collect();
            let count =
                |slot: fn(&u16) -> u16| objects.iter().map(slot).collect::<HashSet<_>>().len();
            assert_eq!(objects.len(), 16);
            assert!(objects.iter().all(|&o| o < OBJECTS));
            assert_eq!(count(|o| o % 16), 2);
            assert_eq!(count(|o| o / 16 % 16), 2);
            assert_eq!(count(|o| o / 64), 4);
        }
    }
}
