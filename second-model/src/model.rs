//! The machine: a switch, the store behind it, the waiting packets and the open
//! operations, and what each step does to them (document 01; document 02,
//! Req 01, Req 02, Req 04, Req 07, Req 10 and Req 11).

mod chain;
mod few;
mod quorum;
mod store;
mod switch;

use chain::{Chain, Newcomer};
pub use chain::{Held, Write};
pub use few::{Few, MOST};
use quorum::Quorum;
pub use quorum::{Item, SIZES};
use store::{Direct, Store};
use switch::Switch;

/// Objects are 0 to 1,023.
pub const OBJECTS: u16 = 1024;
/// The most packets waiting, writes linked, and operations open; in a quorum store
/// the most items in one link, and entries not executed.
pub const FULL: usize = 64;
/// The most replicas at a start, and the most live at any time.
pub const REPLICAS: u8 = 8;
/// The last number that a replica can have.
pub const LAST_NUMBER: u8 = 255;

/// Switch number, 16 bits, and counter, 32 bits, compared by switch number first
/// (P1).
#[derive(Clone, Copy, Debug, Default, PartialEq, Eq, PartialOrd, Ord)]
pub struct Stamp(u64);

impl Stamp {
    /// The stamp (0,0).
    pub const ZERO: Stamp = Stamp(0);

    /// The stamp (switch, counter).
    pub const fn new(switch: u16, counter: u32) -> Self {
        Stamp((switch as u64) << 32 | counter as u64)
    }

    /// The switch number.
    pub const fn switch(self) -> u16 {
        (self.0 >> 32) as u16
    }
}

/// The objects of a read, in the order given.
pub type Objects = Few<u16>;
/// Their values, in the same order; one value for a write.
pub type Values = Few<u32>;

/// A start: tag 32, a chain, or tag 33, a leader with followers.
#[derive(Clone, Copy, Debug, PartialEq, Eq)]
pub enum Start {
    Chain { replicas: u8 },
    Quorum { replicas: u8 },
}

/// A step after the start: tags 1 to 10 of "Steps and their records", tag 11,
/// which begins a read of a context, tag 12, which begins a join, tag 13, which
/// copies for it, and tag 14, which makes a leader execute. A step handed over may
/// have any number of objects in a context.
#[derive(Clone, Copy, Debug, PartialEq, Eq)]
pub enum Step {
    Read { object: u16 },
    Write { object: u16, value: u32 },
    Deliver { position: u16, choice: u8 },
    Lose { position: u16 },
    Repeat { position: u16 },
    Advance { replica: u8 },
    Replace { switch: u16 },
    Tell { replica: u8 },
    Remove { replica: u8 },
    GiveUp { operation: u32 },
    Context { objects: Objects },
    Join,
    Copy,
    Execute,
}

/// The rows of "Turned down" and those that requests add, by their numbers.
#[derive(Clone, Copy, Debug, PartialEq, Eq)]
#[repr(u8)]
pub enum Refusal {
    BadRecord = 1,
    BadReplicaCount = 2,
    BadObject = 3,
    NumbersUsedUp = 4,
    TooManyOpen = 5,
    TooManyWaiting = 6,
    NoPacket = 7,
    UnstampedRepeat = 8,
    NotLive = 9,
    NothingIncoming = 10,
    SwitchNotAbove = 11,
    OnlyOneLive = 12,
    NotOpen = 13,
    InputTooLong = 14,
    BufferTooShort = 15,
    NamedTwice = 16,
    NoNewcomer = 17,
    JoinUnderWay = 18,
    NoJoin = 19,
    TooManySteps = 20,
    LastNotRefused = 21,
    TooManyRecords = 22,
    NotInThisStore = 23,
    NoneToExecute = 24,
}

impl Refusal {
    /// The number that is returned and printed.
    pub fn number(self) -> u8 {
        self as u8
    }
}

/// How a read's value stands to the pending write that the read went round:
/// `Old` if its stamp is below the one carried, else `New`; `None` where no
/// stamp was carried, and for every write.
#[derive(Clone, Copy, Debug, PartialEq, Eq)]
pub enum Age {
    None,
    Old,
    New,
}

impl Age {
    /// The age of a value with this stamp, for a read that carried this.
    fn of(value: Stamp, carried: Option<Stamp>) -> Age {
        match carried {
            None => Age::None,
            Some(carried) if value < carried => Age::Old,
            Some(_) => Age::New,
        }
    }

    /// The word that is printed.
    pub fn word(self) -> &'static str {
        match self {
            Age::None => "-",
            Age::Old => "old",
            Age::New => "new",
        }
    }
}

/// How a reply came about: by a write; by a direct read; by a read that the
/// switch sent to the tail; by a direct read that a replica sent on to the
/// tail. A former tail that sends a normal read on leaves it as it is. The leader
/// of a quorum store stands for the tail. It is not printed.
#[derive(Clone, Copy, Debug, PartialEq, Eq)]
pub enum Way {
    Write,
    Direct,
    Tail,
    SentOn,
}

/// The operation that a deliver has just finished, with its value, or its
/// values in the order given, the age and the way of its reply.
#[derive(Clone, Copy, Debug, PartialEq, Eq)]
pub struct Finished {
    pub operation: u32,
    pub values: Values,
    pub age: Age,
    pub way: Way,
}

/// What a step gives back: accepted, perhaps with an operation just finished,
/// or turned down with all unchanged.
pub type Answer = Result<Option<Finished>, Refusal>;

/// A waiting packet, one case for each item of "What delivery does", and a
/// follower's acknowledgement of so many entries, the first ones, to the leader. A
/// read of one object and a read of a context are the same packets. What a normal read
/// and a reply carry is the stamp of the mark that the switch found when it sent
/// a read of one object to the tail; a read of a context carries none.
#[derive(Clone, Copy, Debug, PartialEq, Eq)]
pub enum Packet {
    UnstampedWrite {
        operation: u32,
        object: u16,
        value: u32,
    },
    Read {
        operation: u32,
        objects: Objects,
    },
    StampedWrite {
        to: u8,
        write: Write,
    },
    DirectRead {
        to: u8,
        operation: u32,
        objects: Objects,
        switch: u16,
        committed: Stamp,
    },
    NormalRead {
        to: u8,
        operation: u32,
        objects: Objects,
        carried: Option<Stamp>,
        way: Way,
    },
    Completion {
        object: u16,
        stamp: Stamp,
    },
    Acknowledgement {
        from: u8,
        entries: u64,
    },
    Reply {
        operation: u32,
        values: Values,
        carried: Option<Stamp>,
        age: Age,
        way: Way,
    },
}

/// The open operations, at most 64, in the order of their begins.
struct OpenOperations(Vec<u32>);

impl OpenOperations {
    fn new() -> Self {
        OpenOperations(Vec::with_capacity(FULL))
    }

    fn count(&self) -> usize {
        self.0.len()
    }

    fn contains(&self, operation: u32) -> bool {
        self.0.contains(&operation)
    }

    /// Opens an operation that is not open.
    fn insert(&mut self, operation: u32) {
        self.0.push(operation);
    }

    /// Closes an operation; says whether it was open.
    fn remove(&mut self, operation: u32) -> bool {
        let place = self.0.iter().position(|&open| open == operation);
        if let Some(place) = place {
            self.0.remove(place);
        }
        place.is_some()
    }
}

/// Is an object named twice?
fn named_twice(objects: &[u16]) -> bool {
    let mut rest = objects;
    while let [first, others @ ..] = rest {
        if others.contains(first) {
            return true;
        }
        rest = others;
    }
    false
}

/// The reply of a replica that holds this of the objects: it carries what its
/// read carried, and the value's age is decided here. Only a read of one object
/// carries a stamp.
fn answered(operation: u32, held: Few<Held>, carried: Option<Stamp>, way: Way) -> Packet {
    let age = match held.kept() {
        [only] => Age::of(only.stamp, carried),
        _ => Age::None,
    };
    Packet::Reply {
        operation,
        values: held.each().map(|held| held.value).collect(),
        carried,
        age,
        way,
    }
}

/// The whole state of a run. `begun` is the last operation number given.
pub struct Model {
    switch: Switch,
    store: Store,
    waiting: Vec<Packet>,
    open: OpenOperations,
    begun: u32,
}

impl Model {
    /// An empty store with replicas 1 to n. A chain with n outside 1 to 8 gives 2,
    /// and so does a quorum store of another size than 3, 5 or 7.
    pub fn start(start: Start) -> Result<Model, Refusal> {
        let store = match start {
            Start::Chain {
                replicas: n @ 1..=REPLICAS,
            } => Store::Chain(Chain::new(n)),
            Start::Quorum { replicas: n } if SIZES.contains(&n) => Store::Quorum(Quorum::new(n)),
            _ => return Err(Refusal::BadReplicaCount),
        };
        Ok(Model {
            switch: Switch::new(1),
            store,
            waiting: Vec::with_capacity(FULL),
            open: OpenOperations::new(),
            begun: 0,
        })
    }

    /// Makes one step. A refused step leaves all unchanged.
    pub fn step(&mut self, step: Step) -> Answer {
        match step {
            Step::Read { object } => self.begin_read(Few::one(object)),
            Step::Write { object, value } => self.begin_write(object, value),
            Step::Deliver { position, choice } => self.deliver(position, choice),
            Step::Lose { position } => self.lose(position),
            Step::Repeat { position } => self.repeat(position),
            Step::Advance { replica } => self.advance(replica),
            Step::Replace { switch } => self.replace(switch),
            Step::Tell { replica } => self.tell(replica),
            Step::Remove { replica } => self.remove(replica),
            Step::GiveUp { operation } => self.give_up(operation),
            Step::Context { objects } => self.begin_context(objects),
            Step::Join => self.join(),
            Step::Copy => self.copy(),
            Step::Execute => self.execute(),
        }
    }

    /// Tag 1, and tag 11 with a number of objects that it takes.
    fn begin_read(&mut self, objects: Objects) -> Answer {
        self.begin(objects.kept(), |operation| Packet::Read {
            operation,
            objects,
        })
    }

    /// Tag 2.
    fn begin_write(&mut self, object: u16, value: u32) -> Answer {
        self.begin(&[object], |operation| Packet::UnstampedWrite {
            operation,
            object,
            value,
        })
    }

    /// Tag 11: "another number of objects in a step to be run" is 1, first of
    /// all.
    fn begin_context(&mut self, objects: Objects) -> Answer {
        match objects.is_context() {
            true => self.begin_read(objects),
            false => Err(Refusal::BadRecord),
        }
    }

    /// An operation on these objects, with its first packet. Order 3, 16, 4, 5,
    /// 6; one object alone is not named twice.
    fn begin(&mut self, objects: &[u16], packet: impl FnOnce(u32) -> Packet) -> Answer {
        if objects.iter().any(|&object| object >= OBJECTS) {
            return Err(Refusal::BadObject);
        }
        if named_twice(objects) {
            return Err(Refusal::NamedTwice);
        }
        let operation = self.begun.checked_add(1).ok_or(Refusal::NumbersUsedUp)?;
        if self.open.count() >= FULL {
            return Err(Refusal::TooManyOpen);
        }
        if self.waiting.len() >= FULL {
            return Err(Refusal::TooManyWaiting);
        }
        self.begun = operation;
        self.open.insert(operation);
        self.waiting.push(packet(operation));
        Ok(None)
    }

    /// Tag 3: the packet leaves the list and has its effect. Order 7, 6.
    fn deliver(&mut self, position: u16, choice: u8) -> Answer {
        let position = usize::from(position);
        let packet = *self.waiting.get(position).ok_or(Refusal::NoPacket)?;
        if self.waiting.len() >= FULL && self.makes_two(packet) {
            return Err(Refusal::TooManyWaiting);
        }
        self.waiting.remove(position);
        match packet {
            Packet::Reply {
                operation,
                values,
                age,
                way,
                ..
            } => {
                let finished = Finished {
                    operation,
                    values,
                    age,
                    way,
                };
                return Ok(self.finish(finished));
            }
            Packet::Completion { object, stamp } => self.switch.complete(object, stamp),
            Packet::StampedWrite { to, write } => self.write_arrives(to, write),
            Packet::Acknowledgement { from, entries } => {
                if let Store::Quorum(quorum) = &mut self.store {
                    quorum.acknowledge(from, entries);
                }
            }
            other => {
                let next = self.passed_on(other, choice);
                self.waiting.extend(next);
            }
        }
        Ok(None)
    }

    /// Only a write applied where the tail is puts two packets in the place of
    /// one; every other delivery puts one or none. A leader that logs puts none.
    fn makes_two(&self, packet: Packet) -> bool {
        let (Packet::StampedWrite { to, write }, Store::Chain(chain)) = (packet, &self.store)
        else {
            return false;
        };
        let place = chain.accepting(to, write.stamp);
        place.is_some_and(|place| chain.is_tail(place))
    }

    /// The packet that comes of an unstamped write or a read, if any. "A normal
    /// read that reaches a former tail is sent on to the present one."
    fn passed_on(&mut self, packet: Packet, choice: u8) -> Option<Packet> {
        match packet {
            Packet::UnstampedWrite {
                operation,
                object,
                value,
            } => self.stamped(operation, object, value),
            Packet::Read { operation, objects } => Some(self.directed(operation, objects, choice)),
            Packet::DirectRead {
                to,
                operation,
                objects,
                switch,
                committed,
            } => {
                let place = self.store.place(to)?;
                Some(match self.store.direct(place, objects, switch, committed) {
                    Direct::Answered(held) => answered(operation, held, None, Way::Direct),
                    Direct::SentOn => self.to_tail(operation, objects, None, Way::SentOn),
                })
            }
            Packet::NormalRead {
                to,
                operation,
                objects,
                carried,
                way,
            } => {
                let place = self.store.place(to)?;
                if to != self.store.tail() {
                    return Some(self.to_tail(operation, objects, carried, way));
                }
                let held = self.store.held_of(place, objects);
                Some(answered(operation, held, carried, way))
            }
            _ => None,
        }
    }

    /// "Unstamped write, to the switch."
    fn stamped(&mut self, operation: u32, object: u16, value: u32) -> Option<Packet> {
        if !self.store.all_permit(self.switch.number) {
            return None;
        }
        let stamp = self.switch.mark(object)?;
        Some(Packet::StampedWrite {
            to: self.store.head(),
            write: Write {
                operation,
                object,
                value,
                stamp,
            },
        })
    }

    /// "Read, to the switch": direct to the replica at place choice mod live, if
    /// direct reads are on and none of the objects has a counting mark, or
    /// normal to the tail. One object alone has its mark's stamp carried.
    fn directed(&self, operation: u32, objects: Objects, choice: u8) -> Packet {
        let mut marks = objects.each().map(|o| self.switch.counting_mark(o));
        if !self.switch.direct_reads || marks.any(|mark| mark.is_some()) {
            let carried = match objects.kept() {
                &[object] => self.switch.counting_mark(object),
                _ => None,
            };
            return self.to_tail(operation, objects, carried, Way::Tail);
        }
        let place = usize::from(choice) % self.store.live();
        Packet::DirectRead {
            to: self.store.name(place),
            operation,
            objects,
            switch: self.switch.number,
            committed: self.switch.committed,
        }
    }

    /// A normal read to the replica that is the tail now.
    fn to_tail(
        &self,
        operation: u32,
        objects: Objects,
        carried: Option<Stamp>,
        way: Way,
    ) -> Packet {
        Packet::NormalRead {
            to: self.store.tail(),
            operation,
            objects,
            carried,
            way,
        }
    }

    /// "Stamped write, to a replica": to a replica of the chain, or to the leader.
    fn write_arrives(&mut self, to: u8, write: Write) {
        match &mut self.store {
            Store::Chain(chain) => {
                let place = chain.accepting(to, write.stamp);
                if place.is_some_and(|place| chain.apply(place, write)) {
                    self.done(write);
                }
            }
            Store::Quorum(quorum) => quorum.write_arrives(write),
        }
    }

    /// "The tail, on applying a write, sends a reply with the written value, then a
    /// completion"; so does the leader on executing it.
    fn done(&mut self, write: Write) {
        self.waiting.push(Packet::Reply {
            operation: write.operation,
            values: Few::one(write.value),
            carried: None,
            age: Age::None,
            way: Way::Write,
        });
        self.waiting.push(Packet::Completion {
            object: write.object,
            stamp: write.stamp,
        });
    }

    /// "Reply. Finishes the operation if it is open; otherwise ignored."
    fn finish(&mut self, finished: Finished) -> Option<Finished> {
        let open = self.open.remove(finished.operation);
        open.then_some(finished)
    }

    /// Tag 4.
    fn lose(&mut self, position: u16) -> Answer {
        let position = usize::from(position);
        if position >= self.waiting.len() {
            return Err(Refusal::NoPacket);
        }
        self.waiting.remove(position);
        Ok(None)
    }

    /// Tag 5. Order 7, 8, 6.
    fn repeat(&mut self, position: u16) -> Answer {
        let packet = self.waiting.get(usize::from(position));
        let packet = *packet.ok_or(Refusal::NoPacket)?;
        if matches!(packet, Packet::UnstampedWrite { .. }) {
            return Err(Refusal::UnstampedRepeat);
        }
        if self.waiting.len() >= FULL {
            return Err(Refusal::TooManyWaiting);
        }
        self.waiting.push(packet);
        Ok(None)
    }

    /// Tag 6. Order 9, 10, 6. The head has nothing incoming.
    fn advance(&mut self, replica: u8) -> Answer {
        let place = self.store.place(replica).ok_or(Refusal::NotLive)?;
        if self.store.coming(place) == 0 {
            return Err(Refusal::NothingIncoming);
        }
        if self.waiting.len() + self.sent_by_advancing(place) > FULL {
            return Err(Refusal::TooManyWaiting);
        }
        match &mut self.store {
            Store::Chain(chain) => {
                let write = chain.take_oldest(place);
                if let Some(write) = write.filter(|&write| chain.apply(place, write)) {
                    self.done(write);
                }
            }
            Store::Quorum(quorum) => {
                let entries = quorum.take_oldest(place);
                let from = replica;
                let packet = entries.map(|entries| Packet::Acknowledgement { from, entries });
                self.waiting.extend(packet);
            }
        }
        Ok(None)
    }

    /// The packets that taking the oldest item of a place's link brings: reply and
    /// completion at the tail of a chain, an acknowledgement for an entry.
    fn sent_by_advancing(&self, place: usize) -> usize {
        match &self.store {
            Store::Chain(chain) => 2 * usize::from(chain.is_tail(place)),
            Store::Quorum(quorum) => match quorum.members()[place].incoming.front() {
                Some(Item::Entry(_)) => 1,
                _ => 0,
            },
        }
    }

    /// Tag 7.
    fn replace(&mut self, switch: u16) -> Answer {
        if switch <= self.switch.number {
            return Err(Refusal::SwitchNotAbove);
        }
        self.switch = Switch::new(switch);
        Ok(None)
    }

    /// Tag 8.
    fn tell(&mut self, replica: u8) -> Answer {
        let place = self.store.place(replica).ok_or(Refusal::NotLive)?;
        self.store.tell(place, self.switch.number);
        Ok(None)
    }

    /// Tag 9. Order 23, 9, 12.
    fn remove(&mut self, replica: u8) -> Answer {
        let chain = self.store.chain_mut().ok_or(Refusal::NotInThisStore)?;
        let place = chain.place(replica).ok_or(Refusal::NotLive)?;
        if chain.live().len() == 1 {
            return Err(Refusal::OnlyOneLive);
        }
        chain.remove(place);
        Ok(None)
    }

    /// Tag 10.
    fn give_up(&mut self, operation: u32) -> Answer {
        if !self.open.remove(operation) {
            return Err(Refusal::NotOpen);
        }
        Ok(None)
    }

    /// Tag 12. Order 23, 17, 18.
    fn join(&mut self) -> Answer {
        let chain = self.store.chain_mut().ok_or(Refusal::NotInThisStore)?;
        let full = chain.live().len() >= usize::from(REPLICAS);
        if full || chain.given() == LAST_NUMBER {
            return Err(Refusal::NoNewcomer);
        }
        if chain.newcomer().is_some() {
            return Err(Refusal::JoinUnderWay);
        }
        chain.begin_join();
        Ok(None)
    }

    /// Tag 13. Order 23, 19.
    fn copy(&mut self) -> Answer {
        let chain = self.store.chain_mut().ok_or(Refusal::NotInThisStore)?;
        if chain.newcomer().is_none() {
            return Err(Refusal::NoJoin);
        }
        chain.copy();
        Ok(None)
    }

    /// Tag 14. Order 23, 24, 6.
    fn execute(&mut self) -> Answer {
        let Store::Quorum(quorum) = &mut self.store else {
            return Err(Refusal::NotInThisStore);
        };
        if !quorum.may_execute() {
            return Err(Refusal::NoneToExecute);
        }
        if self.waiting.len() + 2 > FULL {
            return Err(Refusal::TooManyWaiting);
        }
        if let Some(write) = quorum.execute() {
            self.done(write);
        }
        Ok(None)
    }
}

/// What can be seen of the state.
impl Model {
    /// The waiting packets, oldest first.
    pub fn packets(&self) -> &[Packet] {
        &self.waiting
    }

    /// How many packets wait.
    pub fn waiting(&self) -> usize {
        self.waiting.len()
    }

    /// How many marks count.
    pub fn counting_marks(&self) -> usize {
        self.switch.counting()
    }

    /// The stamp of an object's counting mark, if it has one.
    pub fn counting_mark(&self, object: u16) -> Option<Stamp> {
        self.switch.counting_mark(object)
    }

    /// Are direct reads on?
    pub fn direct_reads(&self) -> bool {
        self.switch.direct_reads
    }

    /// The last-committed stamp.
    pub fn last_committed(&self) -> Stamp {
        self.switch.committed
    }

    /// Value and stamp of an object at a live replica.
    pub fn held(&self, replica: u8, object: u16) -> Option<Held> {
        if object >= OBJECTS {
            return None;
        }
        Some(self.store.held(self.store.place(replica)?, object))
    }

    /// The live replicas in chain order, or the leader and its followers.
    pub fn live(&self) -> impl ExactSizeIterator<Item = u8> + '_ {
        (0..self.store.live()).map(|place| self.store.name(place))
    }

    /// The writes in the link that comes in to a live replica of a chain, oldest
    /// first.
    pub fn incoming(&self, replica: u8) -> impl ExactSizeIterator<Item = Write> + '_ {
        let chain = self.store.chain();
        let link = chain.and_then(|chain| Some(chain.replica(replica)?.incoming.iter()));
        link.unwrap_or_default().copied()
    }

    /// How many writes, or items, the link that comes in to a live replica holds.
    pub fn coming(&self, replica: u8) -> usize {
        let place = self.store.place(replica);
        place.map_or(0, |place| self.store.coming(place))
    }

    /// The switch number that a live replica permits.
    pub fn permits(&self, replica: u8) -> Option<u16> {
        Some(self.store.permits(self.store.place(replica)?))
    }

    /// How many writes, or items, all links hold.
    pub fn linked(&self) -> usize {
        self.store.linked()
    }

    /// The present switch's number.
    pub fn switch_number(&self) -> u16 {
        self.switch.number
    }

    /// How many operations are open.
    pub fn open(&self) -> usize {
        self.open.count()
    }

    /// Is this operation open?
    pub fn is_open(&self, operation: u32) -> bool {
        self.open.contains(operation)
    }

    /// The last operation number given, 0 if none.
    pub fn begun(&self) -> u32 {
        self.begun
    }

    /// The present switch's counter.
    pub fn counter(&self) -> u32 {
        self.switch.counter()
    }

    /// The last number given to a replica, live or not.
    pub fn given(&self) -> u8 {
        let chain = self.store.chain();
        chain.map_or(self.store.live() as u8, Chain::given)
    }

    /// The newcomer of a chain, while a join is under way.
    fn joining(&self) -> Option<&Newcomer> {
        self.store.chain()?.newcomer()
    }

    /// The newcomer's number, if a join is under way.
    pub fn newcomer(&self) -> Option<u8> {
        self.joining().map(Newcomer::name)
    }

    /// The objects below this one are copied to the newcomer; 0 without a join.
    pub fn copied(&self) -> u16 {
        self.joining().map_or(0, Newcomer::copied)
    }

    /// Value and stamp of an object at the newcomer, if a join is under way.
    pub fn held_by_newcomer(&self, object: u16) -> Option<Held> {
        if object >= OBJECTS {
            return None;
        }
        self.joining().map(|n| n.held(object))
    }

    /// Puts other things in the place of what the newcomer holds of an object,
    /// for a program that is wrong on purpose. No step does this.
    pub fn falsify_newcomer(&mut self, object: u16, held: Held) {
        let newcomer = self.store.chain_mut().and_then(Chain::newcomer_mut);
        if let (Some(newcomer), true) = (newcomer, object < OBJECTS) {
            newcomer.falsify(object, held);
        }
    }

    /// Turns direct reads on, for a program that is wrong on purpose. No step does
    /// this without a completion of the present switch.
    pub fn falsify_direct_reads(&mut self) {
        self.switch.direct_reads = true;
    }

    /// Puts another packet in the place of the newest one, for a program that
    /// is wrong on purpose. No step does this.
    pub fn falsify_newest(&mut self, packet: Packet) {
        if let Some(newest) = self.waiting.last_mut() {
            *newest = packet;
        }
    }
}

/// What can be seen of a quorum store; nothing of a chain.
impl Model {
    /// Is this a leader with followers?
    pub fn is_quorum(&self) -> bool {
        self.store.quorum().is_some()
    }

    /// The stamp up to which a replica has executed.
    pub fn executed(&self, replica: u8) -> Option<Stamp> {
        Some(self.store.quorum()?.member(replica)?.executed)
    }

    /// The items of the link that comes in to a follower, oldest first.
    pub fn items(&self, replica: u8) -> impl ExactSizeIterator<Item = Item> + '_ {
        let quorum = self.store.quorum();
        let link = quorum.and_then(|quorum| Some(quorum.member(replica)?.incoming.iter()));
        link.unwrap_or_default().copied()
    }

    /// How many entries a replica has logged.
    pub fn logged(&self, replica: u8) -> u64 {
        let logged = self.store.quorum().and_then(|q| q.logged(replica));
        logged.map_or(0, |(logged, _)| logged)
    }

    /// How many entries of a follower the leader has heard of.
    pub fn acknowledged(&self, replica: u8) -> u64 {
        let logged = self.store.quorum().and_then(|q| q.logged(replica));
        logged.map_or(0, |(_, acknowledged)| acknowledged)
    }

    /// How many entries the leader has logged and not executed.
    pub fn unexecuted(&self) -> usize {
        self.store.quorum().map_or(0, Quorum::unexecuted)
    }

    /// Is a stamp above the last that the leader has logged?
    pub fn is_above_the_log(&self, stamp: Stamp) -> bool {
        self.store.quorum().is_some_and(|q| q.is_above(stamp))
    }

    /// How many replicas hold the next entry to execute, for all the leader knows.
    pub fn holders(&self) -> Option<usize> {
        self.store.quorum()?.holders()
    }

    /// How many replicas are a majority.
    pub fn majority(&self) -> usize {
        self.store.quorum().map_or(0, Quorum::majority)
    }

    /// Does a link to a follower hold 64 items?
    pub fn link_full(&self) -> bool {
        self.store.quorum().is_some_and(Quorum::link_full)
    }

    /// Does the leader have an entry to execute, so that tag 14 is not refused by 24?
    pub fn may_execute(&self) -> bool {
        self.store.quorum().is_some_and(Quorum::may_execute)
    }
}

/// States that no file reaches.
#[cfg(test)]
impl Model {
    /// A start after which this is the last operation number given and the
    /// switch's counter, for tests only.
    pub fn start_for_tests(n: u8, begun: u32, counter: u32) -> Model {
        let mut model = Model::start(Start::Chain { replicas: n }).expect("n from 1 to 8");
        model.begun = begun;
        model.switch.set_counter_for_tests(counter);
        model
    }
}

#[cfg(test)]
mod tests;
