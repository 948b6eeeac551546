//! The replicas and the links between them (document 01, "Parts and how big
//! they are" and the text on removing; document 02, Req 04).

mod newcomer;

use super::{Stamp, FULL, OBJECTS};
pub(super) use newcomer::Newcomer;
use std::collections::VecDeque;

/// A write with its stamp, as a replica applies it and a link holds it.
#[derive(Clone, Copy, Debug, PartialEq, Eq)]
pub struct Write {
    pub operation: u32,
    pub object: u16,
    pub value: u32,
    pub stamp: Stamp,
}

/// Value and stamp of one object at one replica; 0 and (0,0) if never written.
#[derive(Clone, Copy, Debug, Default, PartialEq, Eq)]
pub struct Held {
    pub value: u32,
    pub stamp: Stamp,
}

/// A live replica with the link that comes in to it (the head's is empty).
pub(super) struct Replica {
    pub name: u8,
    pub permits: u16,
    pub incoming: VecDeque<Write>,
    highest: Stamp,
    held: Vec<Held>,
}

impl Replica {
    /// "An object never written holds value 0 and stamp (0,0)"; permitted
    /// switch number 1.
    fn new(name: u8) -> Self {
        Replica {
            name,
            permits: 1,
            incoming: VecDeque::with_capacity(FULL),
            highest: Stamp::ZERO,
            held: vec![Held::default(); usize::from(OBJECTS)],
        }
    }

    /// What this replica holds of an object.
    pub fn held(&self, object: u16) -> Held {
        self.held[usize::from(object)]
    }

    /// Applies a write: value and stamp of the object, highest stamp.
    fn apply(&mut self, write: Write) {
        self.held[usize::from(write.object)] = Held {
            value: write.value,
            stamp: write.stamp,
        };
        self.highest = self.highest.max(write.stamp);
    }
}

/// The live replicas in chain order, places from 0: head first, tail last; the
/// last number given to a replica; and the newcomer while a join is under way.
pub(super) struct Chain {
    replicas: Vec<Replica>,
    given: u8,
    newcomer: Option<Newcomer>,
}

impl Chain {
    /// Replicas 1 to n.
    pub fn new(n: u8) -> Self {
        Chain {
            replicas: (1..=n).map(Replica::new).collect(),
            given: n,
            newcomer: None,
        }
    }

    /// The live replicas, head first.
    pub fn live(&self) -> &[Replica] {
        &self.replicas
    }

    /// The place of a replica, if it is live.
    pub fn place(&self, name: u8) -> Option<usize> {
        self.replicas.iter().position(|r| r.name == name)
    }

    /// A replica by its number, if it is live.
    pub fn replica(&self, name: u8) -> Option<&Replica> {
        self.replicas.iter().find(|r| r.name == name)
    }

    /// "The first live one is the head."
    pub fn head(&self) -> u8 {
        self.replicas[0].name
    }

    /// "The last [live one is] the tail."
    pub fn tail(&self) -> u8 {
        self.replicas[self.replicas.len() - 1].name
    }

    /// Is this the place of the tail?
    pub fn is_tail(&self, place: usize) -> bool {
        place + 1 == self.replicas.len()
    }

    /// The writes that all links hold together.
    pub fn linked(&self) -> usize {
        self.replicas.iter().map(|r| r.incoming.len()).sum()
    }

    /// The place where a stamped write will be applied; none if it is dropped
    /// ("replica is gone, stamp not above its highest, links hold 64").
    pub fn accepting(&self, name: u8, stamp: Stamp) -> Option<usize> {
        let place = self.place(name)?;
        let fits = stamp > self.replicas[place].highest && self.linked() < FULL;
        fits.then_some(place)
    }

    /// Applies a write at a place and puts it in the link to the next replica;
    /// says whether there is none, so that this one acts as tail. The newcomer
    /// hears of what the tail applies.
    pub fn apply(&mut self, place: usize, write: Write) -> bool {
        self.replicas[place].apply(write);
        match self.replicas.get_mut(place + 1) {
            Some(next) => {
                next.incoming.push_back(write);
                false
            }
            None => {
                if let Some(newcomer) = &mut self.newcomer {
                    newcomer.hear(write);
                }
                true
            }
        }
    }

    /// Takes the oldest write out of the incoming link of a place.
    pub fn take_oldest(&mut self, place: usize) -> Option<Write> {
        self.replicas[place].incoming.pop_front()
    }

    /// Tag 8: the replica at this place permits this switch.
    pub fn tell(&mut self, place: usize, switch: u16) {
        self.replicas[place].permits = switch;
    }

    /// Tag 9. The head's outgoing link is lost, the tail's incoming link goes
    /// with it, and one between joins its links, "the outgoing link's writes
    /// first". "Removing the tail meanwhile ends the join."
    pub fn remove(&mut self, place: usize) {
        if self.is_tail(place) {
            self.newcomer = None;
        }
        let gone = self.replicas.remove(place);
        if let Some(next) = self.replicas.get_mut(place) {
            if place == 0 {
                next.incoming.clear();
            } else {
                next.incoming.extend(gone.incoming);
            }
        }
    }

    /// The last number given to a replica, live or not.
    pub fn given(&self) -> u8 {
        self.given
    }

    /// The newcomer, if a join is under way.
    pub fn newcomer(&self) -> Option<&Newcomer> {
        self.newcomer.as_ref()
    }

    /// The same, for a program that is wrong on purpose.
    pub fn newcomer_mut(&mut self) -> Option<&mut Newcomer> {
        self.newcomer.as_mut()
    }

    /// Tag 12: a newcomer with "the next number never used"; nothing if all are.
    pub fn begin_join(&mut self) {
        if let Some(next) = self.given.checked_add(1) {
            self.given = next;
            self.newcomer = Some(Newcomer::new(next));
        }
    }

    /// Tag 13: the next copy from the tail. After the last one the newcomer is
    /// the tail. Nothing without a newcomer.
    pub fn copy(&mut self) {
        let (Some(mut newcomer), Some(tail)) = (self.newcomer.take(), self.replicas.last()) else {
            return;
        };
        newcomer.copy_from(tail);
        if newcomer.has_all() {
            let next = newcomer.following(tail);
            self.replicas.push(next);
        } else {
            self.newcomer = Some(newcomer);
        }
    }
}

#[cfg(test)]
mod tests {
    use super::*;

    fn write(counter: u32) -> Write {
        Write {
            operation: counter,
            object: 7,
            value: counter * 10,
            stamp: Stamp::new(1, counter),
        }
    }

    /// Three replicas; write 1 in the link 2-3, write 2 in the link 1-2.
    fn three() -> Chain {
        let mut chain = Chain::new(3);
        assert!(!chain.apply(0, write(1)));
        let oldest = chain.take_oldest(1).unwrap();
        assert!(!chain.apply(1, oldest));
        assert!(!chain.apply(0, write(2)));
        chain
    }

    #[test]
    fn middle_removed_joins_the_links_outgoing_first() {
        let mut chain = three();
        chain.remove(1);
        assert_eq!(chain.linked(), 2);
        assert_eq!(chain.take_oldest(1), Some(write(1)));
        assert_eq!(chain.take_oldest(1), Some(write(2)));
    }

    #[test]
    fn head_removed_loses_its_outgoing_link_only() {
        let mut chain = three();
        chain.remove(0);
        assert_eq!((chain.head(), chain.tail()), (2, 3));
        assert_eq!(chain.linked(), 1);
        assert_eq!(chain.take_oldest(1), Some(write(1)));
    }

    #[test]
    fn tail_removed_empties_its_incoming_link_only() {
        let mut chain = three();
        chain.remove(2);
        assert_eq!((chain.head(), chain.tail()), (1, 2));
        assert_eq!(chain.linked(), 1);
        assert_eq!(chain.take_oldest(1), Some(write(2)));
    }

    #[test]
    fn a_stamp_must_be_above_the_highest_of_any_object() {
        let chain = three();
        assert_eq!(chain.accepting(1, Stamp::new(1, 2)), None);
        assert_eq!(chain.accepting(1, Stamp::new(1, 3)), Some(0));
        assert_eq!(chain.accepting(1, Stamp::new(2, 1)), Some(0));
        assert_eq!(chain.accepting(1, Stamp::new(1, 65_537)), Some(0));
        assert_eq!(chain.accepting(4, Stamp::new(1, 3)), None);
    }

    #[test]
    fn sixty_four_in_the_links_is_full() {
        let mut chain = Chain::new(2);
        for counter in 1..=63 {
            chain.apply(0, write(counter));
        }
        assert_eq!(chain.accepting(1, Stamp::new(1, 64)), Some(0));
        chain.apply(0, write(64));
        assert_eq!(chain.accepting(1, Stamp::new(1, 65)), None);
    }

    #[test]
    fn numbers_are_given_up_to_255() {
        let mut chain = Chain::new(1);
        for number in 2..=255 {
            chain.begin_join();
            assert_eq!(chain.given(), number);
            assert_eq!(chain.newcomer().unwrap().name(), number);
        }
        chain.newcomer = None;
        chain.begin_join();
        assert!(chain.newcomer().is_none());
        assert_eq!(chain.given(), 255);
    }

    #[test]
    fn the_newcomer_s_link_is_empty_and_the_others_stay() {
        let mut chain = three();
        chain.begin_join();
        (0..16).for_each(|_| chain.copy());
        assert_eq!((chain.head(), chain.tail(), chain.live().len()), (1, 4, 4));
        let lengths: Vec<usize> = chain.live().iter().map(|r| r.incoming.len()).collect();
        assert_eq!(lengths, [0, 1, 1, 0]);
        let oldest = chain.take_oldest(2).unwrap();
        assert!(!chain.apply(2, oldest), "the third is no longer the tail");
        assert_eq!(chain.take_oldest(3), Some(write(1)));
    }
}
