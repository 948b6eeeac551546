//! The replica that a join brings, until it is live (document 02, Req 04).

use super::{Held, Replica, Write};
use crate::model::OBJECTS;

/// "Each tag 13 copies the next 64 objects", so that the sixteenth is the last.
const BLOCK: u16 = 64;

/// A replica on its way to become the tail. The objects below `copied` are as
/// the tail holds them; the others are as they were at the start.
pub(in crate::model) struct Newcomer {
    replica: Replica,
    copied: u16,
}

impl Newcomer {
    /// A newcomer with this number, nothing copied.
    pub fn new(name: u8) -> Self {
        Newcomer {
            replica: Replica::new(name),
            copied: 0,
        }
    }

    /// Its number.
    pub fn name(&self) -> u8 {
        self.replica.name
    }

    /// The objects below this one are copied.
    pub fn copied(&self) -> u16 {
        self.copied
    }

    /// What it holds of an object.
    pub fn held(&self, object: u16) -> Held {
        self.replica.held(object)
    }

    /// Puts something else in the place of an object's value and stamp, for a
    /// program that is wrong on purpose.
    pub fn falsify(&mut self, object: u16, held: Held) {
        self.replica.held[usize::from(object)] = held;
    }

    /// The next 64 objects, "with values and stamps from the tail".
    pub fn copy_from(&mut self, tail: &Replica) {
        let next = OBJECTS.min(self.copied + BLOCK);
        let block = usize::from(self.copied)..usize::from(next);
        self.replica.held[block.clone()].copy_from_slice(&tail.held[block]);
        self.copied = next;
    }

    /// "Writes that the tail applies to objects already copied reach the
    /// newcomer too."
    pub fn hear(&mut self, write: Write) {
        if write.object < self.copied {
            self.replica.apply(write);
        }
    }

    /// Is every object copied?
    pub fn has_all(&self) -> bool {
        self.copied == OBJECTS
    }

    /// The live replica that it becomes behind the old tail, "with the old
    /// tail's highest stamp and permitted switch, and an empty link".
    pub fn following(self, tail: &Replica) -> Replica {
        Replica {
            highest: tail.highest,
            permits: tail.permits,
            ..self.replica
        }
    }
}

#[cfg(test)]
mod tests {
    use super::*;
    use crate::model::Stamp;

    fn write(object: u16, counter: u32) -> Write {
        Write {
            operation: counter,
            object,
            value: counter * 10,
            stamp: Stamp::new(1, counter),
        }
    }

    /// A tail that holds each object with its own stamp.
    fn tail() -> Replica {
        let mut tail = Replica::new(3);
        (0..OBJECTS).for_each(|object| tail.apply(write(object, u32::from(object) + 1)));
        tail
    }

    #[test]
    fn sixteen_copies_of_64_objects_from_object_0_up() {
        let tail = tail();
        let mut newcomer = Newcomer::new(4);
        for copies in 1..=16 {
            assert!(!newcomer.has_all());
            newcomer.copy_from(&tail);
            assert_eq!(newcomer.copied(), 64 * copies);
            for object in 0..OBJECTS {
                let expected = match object < 64 * copies {
                    true => tail.held(object),
                    false => Held::default(),
                };
                assert_eq!(newcomer.held(object), expected);
            }
        }
        assert!(newcomer.has_all());
    }

    #[test]
    fn only_copied_objects_are_heard_of() {
        let mut newcomer = Newcomer::new(4);
        newcomer.hear(write(0, 2000));
        assert_eq!(newcomer.held(0), Held::default());
        newcomer.copy_from(&tail());
        newcomer.hear(write(63, 2001));
        newcomer.hear(write(64, 2002));
        assert_eq!(newcomer.held(63).stamp, Stamp::new(1, 2001));
        assert_eq!(newcomer.held(64), Held::default());
    }

    /// The tail's highest stamp and switch as they are then, not as they were
    /// when the join began.
    #[test]
    fn the_tail_s_highest_stamp_and_switch_are_taken_at_the_end() {
        let mut tail = tail();
        let mut newcomer = Newcomer::new(4);
        (0..16).for_each(|_| newcomer.copy_from(&tail));
        tail.apply(write(5, 3000));
        tail.permits = 7;
        let next = newcomer.following(&tail);
        assert_eq!((next.name, next.permits), (4, 7));
        assert_eq!(next.highest, Stamp::new(1, 3000));
        assert!(next.incoming.is_empty());
    }
}
