//! What stands behind the switch: a chain, or a leader with followers (document 02,
//! Req 11).

use super::chain::{Chain, Held};
use super::quorum::Quorum;
use super::{Few, Objects, Stamp};

/// A chain or a quorum store.
pub(super) enum Store {
    Chain(Chain),
    Quorum(Quorum),
}

/// What a replica makes of a direct read: it answers with what it holds of the
/// objects, or sends it on.
pub(super) enum Direct {
    Answered(Few<Held>),
    SentOn,
}

impl Store {
    /// How many replicas are live.
    pub fn live(&self) -> usize {
        match self {
            Store::Chain(chain) => chain.live().len(),
            Store::Quorum(quorum) => quorum.members().len(),
        }
    }

    /// The number of the live replica at a place, from 0.
    pub fn name(&self, place: usize) -> u8 {
        match self {
            Store::Chain(chain) => chain.live()[place].name,
            Store::Quorum(_) => place as u8 + 1,
        }
    }

    /// The place of a replica, if it is live.
    pub fn place(&self, name: u8) -> Option<usize> {
        match self {
            Store::Chain(chain) => chain.place(name),
            Store::Quorum(quorum) => quorum.place(name),
        }
    }

    /// Where stamped writes go.
    pub fn head(&self) -> u8 {
        match self {
            Store::Chain(chain) => chain.head(),
            Store::Quorum(_) => 1,
        }
    }

    /// Where normal reads go; the leader stands for the tail.
    pub fn tail(&self) -> u8 {
        match self {
            Store::Chain(chain) => chain.tail(),
            Store::Quorum(_) => 1,
        }
    }

    /// The switch that the replica at a place permits.
    pub fn permits(&self, place: usize) -> u16 {
        match self {
            Store::Chain(chain) => chain.live()[place].permits,
            Store::Quorum(quorum) => quorum.members()[place].permits,
        }
    }

    /// Does every live replica permit this switch number?
    pub fn all_permit(&self, switch: u16) -> bool {
        (0..self.live()).all(|place| self.permits(place) == switch)
    }

    /// Tag 8: the replica at this place permits this switch.
    pub fn tell(&mut self, place: usize, switch: u16) {
        match self {
            Store::Chain(chain) => chain.tell(place, switch),
            Store::Quorum(quorum) => quorum.tell(place, switch),
        }
    }

    /// What the replica at a place holds of an object; in a quorum store, has
    /// executed.
    pub fn held(&self, place: usize, object: u16) -> Held {
        match self {
            Store::Chain(chain) => chain.live()[place].held(object),
            Store::Quorum(quorum) => quorum.members()[place].held(object),
        }
    }

    /// The same of each object, in the order given.
    pub fn held_of(&self, place: usize, objects: Objects) -> Few<Held> {
        objects.each().map(|o| self.held(place, o)).collect()
    }

    /// A direct read at a place. In a chain no object's stamp may be above the one
    /// carried; in a quorum store the replica's executed stamp may not be below it.
    pub fn direct(&self, place: usize, objects: Objects, switch: u16, committed: Stamp) -> Direct {
        let held = self.held_of(place, objects);
        let fits = match self {
            Store::Chain(_) => held.each().all(|held| held.stamp <= committed),
            Store::Quorum(quorum) => quorum.members()[place].executed >= committed,
        };
        match fits && self.permits(place) == switch {
            true => Direct::Answered(held),
            false => Direct::SentOn,
        }
    }

    /// How many writes, or items, the link that comes in to a place holds.
    pub fn coming(&self, place: usize) -> usize {
        match self {
            Store::Chain(chain) => chain.live()[place].incoming.len(),
            Store::Quorum(quorum) => quorum.members()[place].incoming.len(),
        }
    }

    /// How many writes, or items, all links hold.
    pub fn linked(&self) -> usize {
        match self {
            Store::Chain(chain) => chain.linked(),
            Store::Quorum(quorum) => quorum.linked(),
        }
    }

    /// The chain, if it is one.
    pub fn chain(&self) -> Option<&Chain> {
        match self {
            Store::Chain(chain) => Some(chain),
            Store::Quorum(_) => None,
        }
    }

    /// The same, to be changed.
    pub fn chain_mut(&mut self) -> Option<&mut Chain> {
        match self {
            Store::Chain(chain) => Some(chain),
            Store::Quorum(_) => None,
        }
    }

    /// The quorum store, if it is one.
    pub fn quorum(&self) -> Option<&Quorum> {
        match self {
            Store::Chain(_) => None,
            Store::Quorum(quorum) => Some(quorum),
        }
    }
}
