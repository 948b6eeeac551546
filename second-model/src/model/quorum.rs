//! A leader with followers (document 02, Req 11): its log, the links to the
//! followers, and what each replica has executed.

use super::chain::{Held, Write};
use super::{Stamp, FULL, OBJECTS};
use std::collections::VecDeque;

/// The sizes that a start takes.
pub const SIZES: [u8; 3] = [3, 5, 7];

/// What a link holds: an entry of the leader's log, or the stamp up to which the
/// leader has executed.
#[derive(Clone, Copy, Debug, PartialEq, Eq)]
pub enum Item {
    Entry(Write),
    Executed(Stamp),
}

/// A replica: what it has executed, the entries it has logged and not executed,
/// and the link that comes in to it (the leader's is empty). `logged` counts all
/// its entries; `acknowledged` is how many of them the leader has heard of.
pub(super) struct Member {
    pub permits: u16,
    pub executed: Stamp,
    pub incoming: VecDeque<Item>,
    held: Vec<Held>,
    unexecuted: VecDeque<Write>,
    logged: u64,
    acknowledged: u64,
}

impl Member {
    fn new() -> Self {
        Member {
            permits: 1,
            executed: Stamp::ZERO,
            incoming: VecDeque::with_capacity(FULL),
            held: vec![Held::default(); usize::from(OBJECTS)],
            unexecuted: VecDeque::with_capacity(FULL),
            logged: 0,
            acknowledged: 0,
        }
    }

    /// What this replica has executed of an object.
    pub fn held(&self, object: u16) -> Held {
        self.held[usize::from(object)]
    }

    fn log(&mut self, write: Write) {
        self.unexecuted.push_back(write);
        self.logged += 1;
    }

    /// Executes the oldest entry that is not executed, if there is one.
    fn execute_next(&mut self) -> Option<Write> {
        let write = self.unexecuted.pop_front()?;
        self.held[usize::from(write.object)] = Held {
            value: write.value,
            stamp: write.stamp,
        };
        self.executed = write.stamp;
        Some(write)
    }

    /// "A follower executes up to that stamp on taking it."
    fn execute_up_to(&mut self, stamp: Stamp) {
        while self.unexecuted.front().is_some_and(|w| w.stamp <= stamp) {
            self.execute_next();
        }
    }
}

/// The replicas in the order of their numbers, the leader first, and the stamp that
/// the leader has logged last.
pub(super) struct Quorum {
    members: Vec<Member>,
    last: Stamp,
}

impl Quorum {
    /// Replicas 1 to n.
    pub fn new(n: u8) -> Self {
        Quorum {
            members: (0..n).map(|_| Member::new()).collect(),
            last: Stamp::ZERO,
        }
    }

    /// The replicas, the leader first.
    pub fn members(&self) -> &[Member] {
        &self.members
    }

    pub fn leader(&self) -> &Member {
        &self.members[0]
    }

    /// The place of a replica, from 0; all are live for good.
    pub fn place(&self, name: u8) -> Option<usize> {
        let place = usize::from(name).checked_sub(1)?;
        (place < self.members.len()).then_some(place)
    }

    /// A replica by its number.
    pub fn member(&self, name: u8) -> Option<&Member> {
        Some(&self.members[self.place(name)?])
    }

    /// Tag 8.
    pub fn tell(&mut self, place: usize, switch: u16) {
        self.members[place].permits = switch;
    }

    /// The items that all links hold.
    pub fn linked(&self) -> usize {
        self.members.iter().map(|m| m.incoming.len()).sum()
    }

    /// Does a link hold 64 items?
    pub fn link_full(&self) -> bool {
        self.members.iter().any(|m| m.incoming.len() >= FULL)
    }

    /// The leader's entries that are not executed.
    pub fn unexecuted(&self) -> usize {
        self.leader().unexecuted.len()
    }

    /// Is a stamp above the last logged?
    pub fn is_above(&self, stamp: Stamp) -> bool {
        stamp > self.last
    }

    /// A stamped write, to the leader: dropped if it "is not above the last logged,
    /// or finds a link or the log full"; else logged and sent to every follower.
    pub fn write_arrives(&mut self, write: Write) {
        if !self.is_above(write.stamp) || self.unexecuted() >= FULL || self.link_full() {
            return;
        }
        self.last = write.stamp;
        self.members[0].log(write);
        self.send(Item::Entry(write));
    }

    /// Puts an item in every link.
    fn send(&mut self, item: Item) {
        for follower in &mut self.members[1..] {
            follower.incoming.push_back(item);
        }
    }

    /// Tag 6: the follower at a place takes the oldest item of its link. For an
    /// entry, how many it has now: that is what it acknowledges.
    pub fn take_oldest(&mut self, place: usize) -> Option<u64> {
        let follower = &mut self.members[place];
        match follower.incoming.pop_front()? {
            Item::Entry(write) => {
                follower.log(write);
                Some(follower.logged)
            }
            Item::Executed(stamp) => {
                follower.execute_up_to(stamp);
                None
            }
        }
    }

    /// An acknowledgement, to the leader; one that is late or repeated "lowers
    /// nothing".
    pub fn acknowledge(&mut self, from: u8, entries: u64) {
        if let Some(place) = self.place(from) {
            let known = &mut self.members[place].acknowledged;
            *known = entries.max(*known);
        }
    }

    /// How many replicas hold the leader's next entry that is not executed, "by the
    /// acknowledgements delivered to it and counting itself"; none without such an
    /// entry.
    pub fn holders(&self) -> Option<usize> {
        let leader = self.leader();
        let executed = leader.logged - leader.unexecuted.len() as u64;
        let hold = self.members[1..].iter();
        let hold = hold.filter(|f| f.acknowledged > executed).count();
        (!leader.unexecuted.is_empty()).then_some(1 + hold)
    }

    /// More than half.
    pub fn majority(&self) -> usize {
        self.members.len() / 2 + 1
    }

    /// May the leader execute its next entry?
    pub fn may_execute(&self) -> bool {
        self.holders() >= Some(self.majority()) && !self.link_full()
    }

    /// Tag 14, where it may: executes the next entry, puts its stamp in every link
    /// and gives the entry.
    pub fn execute(&mut self) -> Option<Write> {
        let write = self.members[0].execute_next()?;
        self.send(Item::Executed(write.stamp));
        Some(write)
    }

    /// How many entries a replica has logged, and how many of them the leader has
    /// heard of.
    pub fn logged(&self, name: u8) -> Option<(u64, u64)> {
        self.member(name).map(|m| (m.logged, m.acknowledged))
    }
}
