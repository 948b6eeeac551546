//! Writes a run step by step, with an eye on the model's state.

use super::mood::*;
use super::Random;
use crate::model::{Few, Model, Objects, Packet, Stamp, Step, FULL, LAST_NUMBER, MOST, REPLICAS};
use crate::records::{append, append_in_two_bytes, Record, LONGEST};

/// Writes one file: the mood, the model as it stands, the bytes so far.
pub struct Author {
    mood: Mood,
    random: Random,
    model: Model,
    bytes: Vec<u8>,
}

/// Can whole records fill what is left after one of this size? They have 4, 5,
/// 6 or 9 bytes; those with several objects or none, and give-ups, are not counted
/// on.
fn leaves_room(left: usize, size: usize) -> bool {
    let after = left.checked_sub(size);
    after.is_some_and(|after| !matches!(after, 1..=3 | 7))
}

/// The stamp of an object at a replica; (0,0) if it is gone.
fn stamp(model: &Model, replica: u8, object: u16) -> Stamp {
    let held = model.held(replica, object);
    held.map_or(Stamp::ZERO, |held| held.stamp)
}

/// Is this a normal read with a stamp, or of several objects?
fn slow(packet: &Packet) -> bool {
    match packet {
        Packet::NormalRead {
            carried, objects, ..
        } => carried.is_some() || objects.is_context(),
        _ => false,
    }
}

impl Author {
    pub fn new(mood: Mood, random: Random) -> Self {
        let model = Model::start(mood.sound_start()).expect("a sound start");
        let mut bytes = Vec::new();
        append(Record::Start(mood.start()), &mut bytes);
        Author {
            mood,
            random,
            model,
            bytes,
        }
    }

    /// One write all the way through the chain, or through a majority, so that
    /// direct reads are on.
    fn open_with_a_write(&mut self) {
        let first = self.act(WRITE);
        let deliver = Step::Deliver {
            position: 0,
            choice: 0,
        };
        let others: Vec<u8> = self.model.live().skip(1).collect();
        let heard = match self.model.is_quorum() {
            true => vec![deliver; others.len()],
            false => vec![],
        };
        let execute = self.model.is_quorum().then_some(Step::Execute);
        let advances = others.into_iter().map(|replica| Step::Advance { replica });
        let start = [first, deliver, deliver];
        let applied = start
            .into_iter()
            .chain(advances)
            .chain(heard)
            .chain(execute);
        for step in applied.chain([deliver, deliver]) {
            self.put(step);
            let _ = self.model.step(step);
        }
    }

    /// Adds the record of a step; that of a give-up with length 2 as often as the
    /// mood wants.
    fn put(&mut self, step: Step) {
        let short = match step {
            Step::GiveUp { operation } => u16::try_from(operation).ok(),
            _ => None,
        };
        match short {
            Some(operation) if self.wants_two_bytes() => {
                append_in_two_bytes(operation, &mut self.bytes);
            }
            _ => append(Record::Step(step), &mut self.bytes),
        }
    }

    /// Nothing is drawn where it is all or none.
    fn wants_two_bytes(&mut self) -> bool {
        match self.mood.short {
            0 => false,
            1000 => true,
            thousandths => self.random.chance(thousandths),
        }
    }

    /// The file, of exactly this length, cut in a record only if it must be.
    pub fn write(mut self, length: usize) -> Vec<u8> {
        let least = 100 * (1 + usize::from(self.model.is_quorum()));
        if self.mood.mischief && length > least {
            self.open_with_a_write();
        }
        while self.bytes.len() < length {
            let before = self.bytes.len();
            let left = length - before;
            let mut step = self.choose();
            self.put(step);
            if left < 2 * LONGEST && !leaves_room(left, self.bytes.len() - before) {
                self.bytes.truncate(before);
                step = self.filler(left);
                self.put(step);
            }
            let _ = self.model.step(step);
        }
        self.bytes.truncate(length);
        self.bytes
    }

    /// A step whose record leaves room for whole records, if there is one.
    fn filler(&mut self, left: usize) -> Step {
        match [6, 5, 4].into_iter().find(|&s| leaves_room(left, s)) {
            Some(5) => self.act(LOSE),
            Some(4) => self.act(TELL),
            _ => self.act(DELIVER),
        }
    }

    /// The next step: an action by weight, its fields by the model's state, or
    /// now and then a wild one.
    fn choose(&mut self) -> Step {
        let weights = self.weights();
        let total: usize = weights.iter().sum();
        let mut drawn = self.random.below(total.max(1));
        let mut action = DELIVER;
        for (place, weight) in weights.into_iter().enumerate() {
            if drawn < weight {
                action = place;
                break;
            }
            drawn -= weight;
        }
        if self.random.chance(self.mood.wild) {
            let others = self.known_actions();
            let other = self.random.0 as usize % others;
            let action = self.random.one_of(&[action, other]);
            return self.act_wildly(action);
        }
        self.act(action)
    }

    /// The actions that a wild step may take: reads of contexts, joins and a
    /// leader's step only where the mood knows them.
    fn known_actions(&self) -> usize {
        let weights = &self.mood.weights;
        match (weights[CONTEXT], weights[JOIN], weights[EXECUTE]) {
            (0, 0, 0) => CONTEXT,
            (_, 0, 0) => JOIN,
            (_, _, 0) => EXECUTE,
            _ => ACTIONS,
        }
    }

    /// The mood's weights, moved so that the run stays where the mood wants
    /// it and most steps are accepted.
    fn weights(&self) -> [usize; ACTIONS] {
        let (mood, model) = (&self.mood, &self.model);
        let mut weights = mood.weights;
        if model.waiting() < mood.waiting {
            weights[DELIVER] /= 4;
            weights[LOSE] /= 4;
        } else {
            weights[READ] /= 4;
            weights[WRITE] /= 4;
            weights[CONTEXT] /= 4;
            weights[REPEAT] /= 4;
        }
        if model.linked() < mood.linked {
            weights[ADVANCE] /= 8;
        }
        if model.open() < mood.open {
            weights[GIVE_UP] /= 8;
        } else {
            weights[GIVE_UP] += 2000;
        }
        if model.open() >= FULL {
            weights[READ] /= 8;
            weights[WRITE] /= 8;
            weights[CONTEXT] /= 8;
        }
        if model.is_quorum() && model.unexecuted() < mood.unexecuted {
            weights[EXECUTE] /= 32;
        }
        if model.is_quorum() && self.completions_behind() {
            weights[REPLACE] *= 10;
        }
        let middle = mood.mischief && self.laden_middle().is_some();
        if middle || self.head_gone_round().is_some() {
            weights[REMOVE] *= 10;
        }
        self.without_idle(weights)
    }

    /// Do several completions of the present switch wait?
    fn completions_behind(&self) -> bool {
        let now = self.model.switch_number();
        let own = |p: &&Packet| match p {
            Packet::Completion { stamp, .. } => stamp.switch() == now,
            _ => false,
        };
        self.model.packets().iter().filter(own).count() > 1
    }

    /// Some weights without the actions that would now be refused or idle.
    fn without_idle(&self, mut weights: [usize; ACTIONS]) -> [usize; ACTIONS] {
        let model = &self.model;
        let now = Some(model.switch_number());
        if model.waiting() == 0 {
            weights[DELIVER..=REPEAT].fill(0);
        }
        if model.linked() == 0 {
            weights[ADVANCE] = 0;
        }
        if model.live().all(|r| model.permits(r) == now) {
            weights[TELL] = 0;
        }
        if model.open() == 0 {
            weights[GIVE_UP] = 0;
        }
        if model.begun() >= self.mood.begins {
            weights[READ..=WRITE].fill(0);
            weights[CONTEXT] = 0;
        }
        let joining = model.newcomer().is_some();
        if model.live().len() == 1 {
            weights[REMOVE] = match joining {
                true => weights[REMOVE] / 8,
                false => 0,
            };
        }
        let full = model.live().len() == usize::from(REPLICAS);
        weights[JOIN] /= match (joining, model.given() == LAST_NUMBER) {
            (true, true) => 5,
            (false, false) if !full => 1,
            _ => 50,
        };
        if !joining {
            weights[COPY] /= 100;
        }
        if model.is_quorum() && !model.may_execute() {
            weights[EXECUTE] /= 50;
        }
        weights
    }

    /// A step with fields that the state suggests.
    fn act(&mut self, action: usize) -> Step {
        match action {
            READ => Step::Read {
                object: self.random.one_of(&self.mood.objects),
            },
            WRITE => self.write_step(),
            DELIVER => Step::Deliver {
                position: self.position(),
                choice: self.choice(),
            },
            LOSE => Step::Lose {
                position: self.losable(),
            },
            REPEAT => Step::Repeat {
                position: self.repeatable(),
            },
            ADVANCE => Step::Advance {
                replica: self.advancing(),
            },
            REPLACE => self.replacement(),
            TELL => Step::Tell {
                replica: self.untold(),
            },
            REMOVE => self.removal(),
            CONTEXT => Step::Context {
                objects: self.context(),
            },
            JOIN => Step::Join,
            COPY => Step::Copy,
            EXECUTE => Step::Execute,
            _ => Step::GiveUp {
                operation: self.open_operation(),
            },
        }
    }

    /// Some of the mood's objects in any order, each once; now and then any
    /// objects are put in their midst.
    fn context(&mut self) -> Objects {
        let mut objects = self.mood.objects.clone();
        for place in (1..objects.len()).rev() {
            objects.swap(place, self.random.within(0, place));
        }
        if self.random.chance(150) {
            let others = self.random.within(1, MOST);
            for _ in 0..others {
                let object = self.random.below(1024) as u16;
                if !objects.contains(&object) {
                    let place = self.random.within(0, objects.len());
                    objects.insert(place, object);
                }
            }
        }
        let most = objects.len().min(MOST);
        objects.truncate(self.random.within(2, most));
        Few::new(&objects)
    }

    /// A context with an object above 1,023, with one named twice, with both,
    /// with an object at a limit, or of eight objects with one of these faults.
    fn wild_context(&mut self) -> Objects {
        let mut objects = self.context().kept().to_vec();
        if self.random.chance(500) {
            let next = |k: usize| (objects[0] as usize + 7 * k) % 1024;
            objects = (0..MOST).map(|k| next(k) as u16).collect();
        }
        let (first, second) = (
            self.random.below(objects.len()),
            self.random.below(objects.len()),
        );
        let above = self.random.one_of(&[1024, 1025, 32_768, 65_535]);
        let limit = self.random.one_of(&[0, 15, 16, 63, 64, 1022, 1023]);
        let fault = self.random.below(8);
        match fault {
            0..3 => objects[second] = objects[first],
            3 => objects[first] = above,
            4 | 5 => {
                objects[second] = objects[first];
                let third = self.random.below(objects.len());
                objects[third] = above;
            }
            6 => {
                objects[first] = above;
                objects[second] = above;
            }
            _ => objects[first] = limit,
        }
        Few::new(&objects)
    }

    /// A write, most often with a value that no other write has.
    fn write_step(&mut self) -> Step {
        let object = self.random.one_of(&self.mood.objects);
        let value = match self.random.below(10) {
            0 => self.random.draw() as u32,
            _ => self.model.begun() + 1,
        };
        Step::Write { object, value }
    }

    /// Any choice; over a quorum store a mischievous mood most often looks for a
    /// follower that lags.
    fn choice(&mut self) -> u8 {
        let any = self.random.draw() as u8;
        if !self.model.is_quorum() || !self.mood.mischief || self.random.chance(400) {
            return any;
        }
        let model = &self.model;
        let lags = |r: &u8| model.executed(*r) < model.executed(1);
        let lagging = model.live().filter(lags).last();
        lagging.map_or(any, |replica| replica - 1)
    }

    fn any_position(&mut self) -> u16 {
        self.random.below(self.model.waiting().max(1)) as u16
    }

    /// The position that the mood wants; most often another one for a normal
    /// read that a patient mood holds back.
    fn position(&mut self) -> u16 {
        let position = self.hasty_position();
        if self.mood.patient == 0 || self.model.newcomer().is_none() {
            return position;
        }
        let normal = |p: &Packet| matches!(p, Packet::NormalRead { .. });
        let packet = self.model.packets().get(usize::from(position));
        if packet.is_some_and(normal) && self.random.chance(self.mood.patient) {
            let other = self.first(|p| !normal(p));
            return other.unwrap_or(position);
        }
        position
    }

    /// The first unstamped write or the oldest packet as often as the mood
    /// wants, else any.
    fn hasty_position(&mut self) -> u16 {
        if self.model.is_quorum() {
            return self.quorum_position();
        }
        if self.mood.mischief {
            return self.mischievous_position();
        }
        if self.mood.rounds {
            return self.round_position();
        }
        if self.random.chance(self.mood.eager) {
            let unstamped = |p: &Packet| matches!(p, Packet::UnstampedWrite { .. });
            return self.first(unstamped).unwrap_or(0);
        }
        if self.random.chance(self.mood.orderly) {
            return 0;
        }
        self.any_position()
    }

    /// The first waiting packet of some sort.
    fn first(&self, sort: impl Fn(&Packet) -> bool) -> Option<u16> {
        let found = self.model.packets().iter().position(sort);
        found.map(|position| position as u16)
    }

    /// A direct read if its replica is ahead of what it carries, else a reply
    /// or, now and then, any other packet.
    fn mischievous_position(&mut self) -> u16 {
        let model = &self.model;
        let direct = |p: &Packet| matches!(p, Packet::DirectRead { .. });
        let ahead = |p: &Packet| match *p {
            Packet::DirectRead {
                to,
                objects,
                committed,
                ..
            } => objects.each().any(|o| stamp(model, to, o) > committed),
            _ => false,
        };
        let first = self.first(ahead);
        let reply = self.first(|p| matches!(p, Packet::Reply { .. }));
        let other = self.first(|p| !direct(p));
        let any = self.any_position();
        let packet = self.model.packets().get(usize::from(any));
        let held_back = packet.is_some_and(direct);
        match (first, reply, other, self.random.below(8)) {
            (Some(ahead), _, _, 0..4) => ahead,
            (_, Some(reply), _, 0..5) => reply,
            (_, _, Some(other), _) if held_back => other,
            _ => any,
        }
    }

    /// Now and then a read of an object with a counting mark, else the oldest
    /// packet or any; most often another one for a packet to be held back.
    fn round_position(&mut self) -> u16 {
        let model = &self.model;
        let marked = self.first(|p| match *p {
            Packet::Read { objects, .. } => {
                let mut marks = objects.each().map(|o| model.counting_mark(o));
                marks.any(|mark| mark.is_some())
            }
            _ => false,
        });
        let position = match (marked, self.random.chance(self.mood.orderly)) {
            (Some(marked), _) if self.random.chance(300) => return marked,
            (_, true) => 0,
            (_, false) => self.any_position(),
        };
        let packet = self.model.packets().get(usize::from(position));
        let held_back = packet.map_or(0, |p| self.held_back(p));
        if self.random.chance(held_back) {
            let other = self.first(|p| self.held_back(p) == 0);
            return other.unwrap_or(position);
        }
        position
    }

    /// The oldest packet as often as the mood wants, or any; most often another one
    /// for a packet to be held back. A mischievous mood looks for a direct read whose
    /// follower lags.
    fn quorum_position(&mut self) -> u16 {
        let model = &self.model;
        let lagging = self.first(|p| match *p {
            Packet::DirectRead { to, .. } => model.executed(to) < model.executed(1),
            _ => false,
        });
        if let (Some(lagging), true) = (lagging, self.mood.mischief) {
            if self.random.chance(300) {
                return lagging;
            }
        }
        let position = match self.random.chance(self.mood.orderly) {
            true => 0,
            false => self.any_position(),
        };
        let packet = self.model.packets().get(usize::from(position));
        let kept = packet.map_or(0, |p| self.kept_waiting(p));
        if self.random.chance(kept) {
            let other = self.first(|p| self.kept_waiting(p) == 0);
            return other.unwrap_or(position);
        }
        position
    }

    /// How often of a thousand times a packet of a quorum store is held back: a
    /// former switch's completion less often than the present one's.
    fn kept_waiting(&self, packet: &Packet) -> usize {
        let now = self.model.switch_number();
        match packet {
            Packet::Acknowledgement { .. } => self.mood.acks,
            Packet::Completion { stamp, .. } if stamp.switch() == now => self.mood.late,
            Packet::Completion { .. } => self.mood.late * 7 / 10,
            Packet::DirectRead { .. } if self.mood.mischief => 700,
            _ => 0,
        }
    }

    /// An acknowledgement as often as the mood mistreats them, if one waits.
    fn mistreated(&mut self) -> Option<u16> {
        if self.mood.acks == 0 || !self.random.chance(self.mood.acks) {
            return None;
        }
        let acks = self.model.packets().iter().enumerate();
        let acks = acks.filter(|(_, p)| matches!(p, Packet::Acknowledgement { .. }));
        let places: Vec<u16> = acks.map(|(place, _)| place as u16).collect();
        match places.as_slice() {
            [] => None,
            places => Some(self.random.one_of(places)),
        }
    }

    /// How often of a thousand times a packet is held back: completions as the
    /// mood wants, normal reads with a stamp or of several objects, and replies
    /// while another copy of their read waits.
    fn held_back(&self, packet: &Packet) -> usize {
        match *packet {
            Packet::Completion { .. } => self.mood.late,
            Packet::NormalRead { .. } if slow(packet) => 500,
            Packet::Reply { operation, .. } => {
                let copy = |p: &Packet| match *p {
                    Packet::NormalRead { operation: o, .. } => o == operation,
                    _ => false,
                };
                750 * usize::from(self.model.packets().iter().any(copy))
            }
            _ => 0,
        }
    }

    /// A completion if the mood holds them back, else any packet.
    fn losable(&mut self) -> u16 {
        if let Some(position) = self.mistreated() {
            return position;
        }
        if self.random.chance(self.mood.late) {
            let completion = self.first(|p| matches!(p, Packet::Completion { .. }));
            return completion.unwrap_or_else(|| self.any_position());
        }
        self.any_position()
    }

    /// A normal read with a stamp or of several objects as often as not, if the
    /// mood wants them repeated and one waits.
    fn carrying(&mut self) -> Option<u16> {
        if !self.mood.rounds || self.random.chance(500) {
            return None;
        }
        self.first(slow)
    }

    /// Most often a packet that may be repeated, if a few tries find one.
    fn repeatable(&mut self) -> u16 {
        if let Some(position) = self.carrying().or_else(|| self.mistreated()) {
            return position;
        }
        let tries = self.random.one_of(&[0, 4, 4, 4]);
        for _ in 0..tries {
            let position = self.any_position();
            let packet = self.model.packets().get(usize::from(position));
            if !matches!(packet, Some(Packet::UnstampedWrite { .. })) {
                return position;
            }
        }
        self.any_position()
    }

    /// Any live replica; head and tail more often than one between.
    fn any_replica(&mut self) -> u8 {
        let last = self.model.live().len() - 1;
        let place = match self.random.below(4) {
            0 => 0,
            1 => last,
            _ => self.random.within(0, last),
        };
        self.model.live().nth(place).unwrap_or(1)
    }

    /// A replica between head and tail with a write in a link beside it.
    fn laden_middle(&self) -> Option<u8> {
        let model = &self.model;
        let laden = |replica: u8| model.incoming(replica).len() > 0;
        let next = model.live().skip(2);
        let mut middles = model.live().skip(1).zip(next);
        let found = middles.find(|&(middle, next)| laden(middle) || laden(next));
        found.map(|(middle, _)| middle)
    }

    /// The head, if the mood wants it and a write in its link is one that a
    /// waiting read goes round.
    fn head_gone_round(&self) -> Option<u8> {
        let mut live = self.model.live();
        let (head, next) = (live.next()?, live.next()?);
        let round = |packet: &Packet| match *packet {
            Packet::NormalRead { carried, .. } => {
                let mut link = self.model.incoming(next);
                link.any(|write| carried == Some(write.stamp))
            }
            _ => false,
        };
        let found = self.mood.rounds && self.model.packets().iter().any(round);
        found.then_some(head)
    }

    /// A live replica that a direct or a normal read of several objects waits
    /// for, the newest one first.
    fn awaited(&self) -> Option<u8> {
        let awaited = |packet: &Packet| match *packet {
            Packet::DirectRead { to, objects, .. } | Packet::NormalRead { to, objects, .. } => {
                objects.is_context().then_some(to)
            }
            _ => None,
        };
        let mut names = self.model.packets().iter().rev().filter_map(awaited);
        names.find(|&name| self.model.permits(name).is_some())
    }

    /// Any live replica, or as often one between with writes beside it, a head
    /// whose writes reads go round or one that reads wait for.
    fn removal(&mut self) -> Step {
        let any = self.any_replica();
        let wanted = self.awaited().or(self.head_gone_round());
        let laden = wanted.or(self.laden_middle()).unwrap_or(any);
        Step::Remove {
            replica: self.random.one_of(&[any, laden]),
        }
    }

    /// A replica with a write coming in, if there is one; a follower that may lag
    /// only if the mood lets it no further, or now and then.
    fn advancing(&mut self) -> u8 {
        let mut offset = self.random.below(8);
        let any = self.model.is_quorum() && self.random.chance(20);
        let model = &self.model;
        if model.is_quorum() {
            offset %= model.live().len();
        }
        let around = model.live().chain(model.live()).skip(offset);
        let ready: Vec<u8> = around.filter(|&r| model.coming(r) > 0).collect();
        let lags = |&&r: &&u8| usize::from(r) > model.majority() && model.coming(r) < self.mood.lag;
        let first = ready.first();
        let wanted = match model.is_quorum() && !any {
            true => ready.iter().find(|r| !lags(r)),
            false => first,
        };
        wanted.or(first).copied().unwrap_or(1)
    }

    /// A replica that does not permit the present switch, or any.
    fn untold(&mut self) -> u8 {
        let model = &self.model;
        let untold = |r: &u8| model.permits(*r) != Some(model.switch_number());
        let found: Vec<u8> = model.live().filter(untold).collect();
        match found.as_slice() {
            [] => self.any_replica(),
            untold => self.random.one_of(untold),
        }
    }

    fn replacement(&mut self) -> Step {
        let above = self.random.one_of(&[1, 1, 1, 2, 40]);
        Step::Replace {
            switch: self.model.switch_number().saturating_add(above),
        }
    }

    /// An open operation, if a few tries among the latest find one.
    fn open_operation(&mut self) -> u32 {
        for _ in 0..20 {
            let operation = self.late_operation();
            if self.model.is_open(operation) {
                return operation;
            }
        }
        self.model.begun()
    }

    /// One of the latest operations, open or not.
    fn late_operation(&mut self) -> u32 {
        let begun = self.model.begun();
        let latest = begun.min(100) as usize;
        begun - self.random.within(0, latest) as u32
    }

    /// The one at a limit; if the mood wants others also a late one, one that has
    /// an open operation's number in some of its bytes, or one above 65,535 or at
    /// the end of all.
    fn wild_operation(&mut self, limit: u32) -> u32 {
        if !self.mood.far {
            return limit;
        }
        let (open, late) = (self.open_operation(), self.late_operation());
        let beside = [
            open | 1 << 16,
            open | 1 << 24,
            open | 1 << 31,
            open << 8,
            open << 16,
        ];
        let beside = self.random.one_of(&beside);
        let end = self
            .random
            .one_of(&[65_536, 65_537, u32::MAX - 1, u32::MAX]);
        self.random
            .one_of(&[limit, late, late, beside, beside, end])
    }

    /// A step with fields at their limits.
    fn act_wildly(&mut self, action: usize) -> Step {
        let replica = self.wild_replica();
        let random = &mut self.random;
        let waiting = self.model.waiting() as u16;
        let last = waiting.saturating_sub(1);
        let position = random.one_of(&[0, last, waiting, 62, 63, 64, 255, 256, 65_535]);
        let object = random.one_of(&[0, 15, 16, 63, 64, 1022, 1023, 1024, 1025, 32_768, 65_535]);
        let value = random.one_of(&[0, 1, 255, 256, 65_536, 1 << 31, u32::MAX]);
        let begun = self.model.begun();
        let operation = random.one_of(&[0, 1, begun, begun.saturating_add(1), 256, 65_535]);
        match action {
            READ => Step::Read { object },
            WRITE => Step::Write { object, value },
            DELIVER => Step::Deliver {
                position,
                choice: random.one_of(&[0, 1, 7, 8, 127, 128, 255]),
            },
            LOSE => Step::Lose { position },
            REPEAT => Step::Repeat { position },
            ADVANCE => Step::Advance { replica },
            REPLACE => self.wild_replacement(),
            TELL => Step::Tell { replica },
            REMOVE => Step::Remove { replica },
            CONTEXT => Step::Context {
                objects: self.wild_context(),
            },
            JOIN => Step::Join,
            COPY => Step::Copy,
            EXECUTE => Step::Execute,
            _ => Step::GiveUp {
                operation: self.wild_operation(operation),
            },
        }
    }

    /// A number at a limit where a live replica's is wanted; while a join is
    /// under way the newcomer's or the tail's more often than not.
    fn wild_replica(&mut self) -> u8 {
        let n = self.mood.replicas;
        let limit = [0, 1, 2, n, n.wrapping_add(1), 7, 8, 9, 128, 255];
        let limit = self.random.one_of(&limit);
        match (self.model.newcomer(), self.model.live().last()) {
            (Some(newcomer), Some(tail)) => {
                let next = newcomer.saturating_add(1);
                let near = [limit, newcomer, newcomer, newcomer, next, tail];
                self.random.one_of(&near)
            }
            _ => limit,
        }
    }

    /// A new switch number at a limit; the last one, 65,535, is rare.
    fn wild_replacement(&mut self) -> Step {
        let now = self.model.switch_number();
        let next = now.saturating_add(1);
        let mut switch = self.random.one_of(&[0, 1, now - 1, now, now, next]);
        if self.random.chance(10) {
            switch = self.random.one_of(&[256, 65_534, 65_535]);
        }
        Step::Replace { switch }
    }
}
